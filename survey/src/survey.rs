//! The survey: a grid in memory, or one that stays in its file; as a whole, or in the blocks of a plan; the bed closed, weighed and levelled.

use crate::arguments::Arguments;
use crate::asked::{apart, open_grid, open_stored, options, scale};
use crate::budget::{self, layered_workers, InMemory};
use crate::enclosing::Enclosing;
use crate::failure::Failure;
use crate::grid::{Grid, Stored};
use crate::judged::{accepted, cut_out, named_block};
use crate::kept::{self, Beside};
use crate::layered::{self, Work};
use crate::layers_of::{Closed, Layered, Raked};
use crate::manifest::{self, Made, MadeBlock, Read};
use crate::measuring::{self, ClosedBed, Measured, Refused};
use crate::numbers::Header;
use crate::page::{Page, Weighed};
use crate::plan::{self, Plan};
use crate::planned::held;
use crate::said::{Said, WRONG};
use crate::sha256::Digest;
use crate::told::{self, Digests};
use crate::{blocks, fixtures, mesh, moved, npy, weighing};
use bed::{Block, Counts, MaxPlane};
use std::ffi::OsString;
use std::path::{Path, PathBuf};

pub fn survey(words: &[OsString]) -> Result<Said, Failure> {
    let arguments = Arguments::read_marked(
        "survey",
        words,
        1,
        &options([
            "-o",
            "--plan",
            "--fixtures",
            "--step",
            "--origin",
            "--levels",
            "--json",
            "--memory",
        ]),
        &["--closed", "--open"],
    )?;
    let (name, output) = (arguments.file(0), arguments.output()?);
    let wanted = match (arguments.marked("--closed"), arguments.marked("--open")) {
        (true, true) => return Err(arguments.wrong("--closed and --open are not for one survey")),
        (true, false) => Wanted::ClosedFiles,
        (false, true) => Wanted::NotClosed,
        (false, false) => Wanted::OpenFiles,
    };
    let cut = arguments.path("--fixtures");
    let path = arguments.path("--plan");
    let scale = scale(&arguments)?;
    let memory = arguments.memory()?;
    let plan = path.map(plan::read).transpose()?;
    let plan = path.zip(plan.as_ref());
    if let Some((path, plan)) = plan {
        held(path, plan)?;
    }
    let read = [Some(name), cut, path].into_iter().flatten();
    let beside = [arguments.path("--levels"), arguments.path("--json")];
    let files = Files::of(&arguments, read, plan.map(|(_, plan)| plan), output, beside)?;
    let fixtures = cut.map(|cut| fixtures::read_any(cut, scale.as_ref()));
    let fixtures = fixtures.transpose()?.map(|(fixtures, _)| fixtures);
    let hashed = plan.is_some() || files.json.is_some();
    let source = open_grid(&arguments, 0, hashed)?;
    let header = source.header;
    let survey = Survey::of(name, &header, plan, &files.names, wanted, &arguments)?;
    let in_memory = InMemory {
        count: source.count(),
        numbers: header.numbers,
        floats: fixtures.is_some(),
        viewed: false,
    };
    let mut points_cut = None;
    let found = if in_memory.fits(memory) {
        let mut grid = source.whole(in_memory.floats)?;
        if let Some(fixtures) = &fixtures {
            points_cut = Some(cut_out(fixtures, name, &mut grid)?);
        }
        let needed = accepted(&grid, &survey.whole, || survey.whole_in_words())?;
        match in_memory.workers(memory, budget::most(needed, &survey.blocks)) {
            0 => None,
            workers => {
                let left = memory.saturating_sub(in_memory.grid());
                Some(survey.in_memory(&grid, needed, workers, left)?)
            }
        }
    } else {
        None
    };
    let by_layers = found.is_none();
    let found = match found {
        Some(found) => found,
        None => {
            let stored = open_stored(&arguments, 0)?;
            let workers = layered_workers(memory, &header);
            let raked = fixtures.as_ref().map(|fixtures| Raked {
                open: &stored,
                fixtures,
            });
            let (found, points) = survey.by_layers(&stored, raked.as_ref(), workers)?;
            points_cut = points;
            found
        }
    };
    let (weighed, mut written): (Vec<_>, Vec<_>) = found.blocks.into_iter().unzip();
    let measured = &found.measured;
    // The closed bed's files, joined, are its mesh: their sums are its volume.
    let weights = weighed.iter().map(|one| one.weight);
    let weights = weights.fold(Ok(weighing::NOTHING), weighing::together);
    let adds_up = match (wanted, measured.volume()) {
        (Wanted::ClosedFiles, Some(volume)) => weights.is_ok_and(|all| all.sum == volume),
        _ => true,
    };
    let status = if adds_up { measured.status() } else { WRONG };
    let digests = if hashed {
        written
            .iter()
            .map(Beside::digest)
            .collect::<Result<Vec<_>, _>>()?
    } else {
        Vec::new()
    };
    let manifest = match plan.zip(found.digest) {
        Some(((path, plan), digest)) => Some(Made {
            grid: Read { name, digest },
            fixtures: fixtures.as_ref().map(|fixtures| Read {
                name: &fixtures.path,
                digest: fixtures.digest,
            }),
            plan: Read {
                name: path,
                digest: plan.digest,
            },
            closed: wanted == Wanted::ClosedFiles,
            offset: survey.offset(),
            scale,
            whole: survey.file_whole,
            blocks: made(&survey, &weighed, &digests),
            volume: measured.trusted().filter(|_| adds_up),
        }),
        None => None,
    };
    let manifest = manifest
        .map(|made| Beside::write(&files.manifest, &made.text()))
        .transpose()?;
    if let Some(name) = &files.levels {
        let levels = measured
            .looked
            .levels
            .each(|steps| scale.map_or(steps, |scale| scale.place(2, steps)));
        let [x, y, _] = crate::layers_of::sizes(&survey.whole);
        written.push(Beside::write(name, &npy::written_flat([x, y], &levels))?);
    }
    let page = Page {
        name,
        header,
        by_layers,
        fixtures: cut.zip(points_cut),
        plan: path,
        whole: survey.whole,
        blocks: plan.map_or(&[], |(_, plan)| &plan.blocks[..]),
        scale,
        closed_files: wanted == Wanted::ClosedFiles,
        offset: survey.offset(),
        needed: found.needed,
        enclosed: found.enclosed,
        weighed: &weighed,
        measured,
        adds_up,
        names: survey.names,
        levels: files.levels.as_deref(),
        json: files.json.as_deref(),
        manifest: manifest.is_some().then_some(files.manifest.as_path()),
        removed: files.removed.len(),
    };
    let lines = page.lines();
    if let Some(name) = &files.json {
        let digests = Digests {
            grid: found.digest,
            plan: plan.map(|(_, plan)| plan.digest),
            fixtures: fixtures.as_ref().map(|fixtures| fixtures.digest),
            files: &digests,
        };
        let json = told::json(&page, &lines, &digests, status);
        written.push(Beside::write(name, json.lines().as_bytes())?);
    }
    // Only when every block is meshed and synced does the first file change; the manifest is the last.
    kept::replace(written, &files.removed, manifest)?;
    Ok(Said {
        text: lines.text(),
        status,
    })
}

/// What a survey does about the open sides of a bed.
#[derive(Clone, Copy, PartialEq)]
enum Wanted {
    /// The files hold the open bed, and the closed one is weighed.
    OpenFiles,
    /// The files hold the closed bed.
    ClosedFiles,
    /// Nothing is closed, and no volume told.
    NotClosed,
}

/// The names that a survey writes, and the files of an older one that it removes.
struct Files {
    /// The mesh file of each block.
    names: Vec<PathBuf>,
    levels: Option<PathBuf>,
    json: Option<PathBuf>,
    manifest: PathBuf,
    removed: Vec<PathBuf>,
}

impl Files {
    /// All of them are apart from what is read, and from each other.
    fn of<'a>(
        arguments: &Arguments,
        read: impl Iterator<Item = &'a Path>,
        plan: Option<&Plan>,
        output: &Path,
        beside: [Option<&Path>; 2],
    ) -> Result<Self, Failure> {
        if !manifest::writable(output) {
            return Err(arguments.wrong("-o wants a name without a new line in it"));
        }
        let names: Vec<_> = match plan {
            None => vec![output.to_path_buf()],
            Some(plan) => (1..=plan.blocks.len())
                .map(|number| manifest::numbered(output, number))
                .collect(),
        };
        let manifest = manifest::name(output);
        let [levels, json] = beside.map(|name| name.map(Path::to_path_buf));
        let read: Vec<_> = read.collect();
        let of_this = || {
            let last = plan.map(|_| &manifest);
            let others = levels.iter().chain(&json);
            names.iter().chain(others).chain(last).map(PathBuf::as_path)
        };
        apart(arguments, read.iter().copied(), of_this())?;
        let removed = manifest::older(output, &names, plan.is_some())?.removed;
        let removed_names = removed.iter().map(PathBuf::as_path);
        apart(arguments, read, of_this().chain(removed_names))?;
        Ok(Self {
            names,
            levels,
            json,
            manifest,
            removed,
        })
    }
}

/// The blocks' files as the manifest has them.
fn made<'a>(survey: &'a Survey, weighed: &'a [Weighed], digests: &[Digest]) -> Vec<MadeBlock<'a>> {
    let blocks = survey.file_blocks.iter().zip(survey.names);
    let blocks = blocks.zip(weighed.iter().zip(digests));
    blocks
        .map(|((block, name), (weighed, digest))| MadeBlock {
            name,
            block: *block,
            weighed,
            digest: *digest,
        })
        .collect()
}

struct Survey<'a> {
    name: &'a Path,
    plan: Option<(&'a Path, &'a Plan)>,
    wanted: Wanted,
    whole: Block,
    /// The plan's; without one the whole alone.
    blocks: Vec<Block>,
    /// Both as the files have them.
    file_whole: Block,
    file_blocks: Vec<Block>,
    /// The mesh file of each block.
    names: &'a [PathBuf],
}

/// What a survey found, its files not yet renamed.
struct Found {
    /// The triangles of the whole's own call.
    needed: u64,
    /// Of the open bed.
    enclosed: bool,
    blocks: Vec<(Weighed, Beside)>,
    measured: Measured,
    /// Of the grid's file, where it was asked.
    digest: Option<Digest>,
}

impl<'a> Survey<'a> {
    fn of(
        name: &'a Path,
        header: &Header,
        plan: Option<(&'a Path, &'a Plan)>,
        names: &'a [PathBuf],
        wanted: Wanted,
        arguments: &Arguments,
    ) -> Result<Self, Failure> {
        let (whole, blocks) = match plan {
            None => {
                let whole = Block {
                    min: [0; 3],
                    max: header.highest(),
                    max_plane: MaxPlane::NONE,
                };
                (whole, vec![whole])
            }
            Some((_, read)) => (read.whole, read.blocks.clone()),
        };
        let (file_whole, file_blocks) = match (wanted, plan) {
            (Wanted::ClosedFiles, Some(_)) => {
                moved::onto_the_closed(&whole, &blocks).ok_or_else(|| {
                    arguments.wrong("--closed: on the closed grid the blocks are no plan of the whole: some is too thin at its side, or the grid too large")
                })?
            }
            (Wanted::ClosedFiles, None) => {
                let closed = measuring::closed_whole(&whole);
                (closed, vec![closed])
            }
            _ => (whole, blocks.clone()),
        };
        Ok(Self {
            name,
            plan,
            wanted,
            whole,
            blocks,
            file_whole,
            file_blocks,
            names,
        })
    }

    /// So many steps from a vertex of the files to where it stands in the grid.
    fn offset(&self) -> [i64; 3] {
        match self.wanted {
            Wanted::ClosedFiles => self.whole.min.map(|place| i64::from(place) - 1),
            _ => [0; 3],
        }
    }

    fn whole_in_words(&self) -> String {
        self.name.display().to_string()
    }

    fn place(&self, number: usize) -> String {
        match self.plan {
            Some((path, plan)) => named_block(self.name, path, plan.lines[number]),
            None => self.whole_in_words(),
        }
    }

    /// `left` is the memory beside the grid.
    fn in_memory(
        &self,
        grid: &Grid,
        needed: Counts,
        workers: usize,
        left: u128,
    ) -> Result<Found, Failure> {
        let (dims, place) = (grid.header.dims, self.whole_in_words());
        let refused = |refusal: bed::Refusal| Failure::refused(&place, refusal.number(), refusal);
        let enclosed = grid
            .distances
            .is_enclosed(dims, self.whole.min, self.whole.max)
            .map_err(refused)?;
        let levels = grid.distances.levels(dims, &self.whole);
        let levels =
            levels.map_err(|refusal| Failure::refused(&place, refusal.number(), refusal))?;
        let looked = measuring::look(grid, &self.whole, Some(levels), &place, &|_| ())?;
        let wall = bed::wall_for(looked.deepest);
        let mut closed_grid = None;
        let closed = match self.wanted {
            Wanted::NotClosed => None,
            _ => Some(self.closed_in_memory(grid, wall, left, &mut closed_grid)?),
        };
        let of_the_closed = |refused: &Refused| Failure::refused(&place, refused.0, &refused.1);
        let (blocks, needed) = match (self.wanted, &closed) {
            (Wanted::ClosedFiles, Some(Err(refusal))) => return Err(of_the_closed(refusal)),
            (Wanted::ClosedFiles, Some(Ok(bed))) => {
                let blocks = match &closed_grid {
                    Some((closed, workers)) => self.files_in_memory(closed, *workers)?,
                    None => {
                        let source = Closed {
                            open: grid,
                            whole: self.whole,
                            wall,
                        };
                        let workers = layered_workers(left, &source.header());
                        self.files_by_layers(&source, workers)?.0
                    }
                };
                (blocks, bed.triangles)
            }
            _ => (self.files_in_memory(grid, workers)?, needed.indices / 3),
        };
        Ok(Found {
            needed,
            enclosed,
            blocks,
            measured: Measured { looked, closed },
            digest: grid.digest,
        })
    }

    /// The closed bed: in memory, where that fits, and else layer by layer out of the grid in memory. The closed grid stays for the files that are
    /// made of it, with how many workers fit beside it.
    fn closed_in_memory(
        &self,
        grid: &Grid,
        wall: f32,
        left: u128,
        kept: &mut Option<(Grid, usize)>,
    ) -> Result<Result<ClosedBed, Refused>, Failure> {
        if let Err(refusal) = measuring::closable(&self.whole, wall) {
            return Ok(Err(refusal));
        }
        let budget = measuring::closed_budget(&self.whole);
        // A box that is not the whole grid is taken out of it before it is closed.
        let everything = self.whole.min == [0; 3] && self.whole.max == grid.header.highest();
        let left = left.saturating_sub(if everything { 0 } else { budget.grid() });
        if budget.fits(left) {
            let closed = match measuring::closed_grid(grid, &self.whole, wall) {
                Ok(closed) => closed,
                Err(refusal) => return Ok(Err(refusal)),
            };
            let counts = accepted(&closed, &self.closed_box(), || self.whole_in_words())?;
            let workers = budget.workers(left, budget::most(counts, &self.file_blocks));
            if workers > 0 {
                let weighed = measuring::weigh_in_memory(&closed, wall)?;
                if self.wanted == Wanted::ClosedFiles {
                    *kept = Some((closed, workers));
                }
                return Ok(Ok(weighed));
            }
        }
        let source = Closed {
            open: grid,
            whole: self.whole,
            wall,
        };
        measuring::weigh_by_layers(&source, &|_| ()).map(Ok)
    }

    fn closed_box(&self) -> Block {
        measuring::closed_whole(&self.whole)
    }

    fn files_in_memory(
        &self,
        grid: &Grid,
        workers: usize,
    ) -> Result<Vec<(Weighed, Beside)>, Failure> {
        let place = |number| self.place(number);
        blocks::mesh_all(grid, &self.file_blocks, workers, place, |number, buffer| {
            let lists = mesh::of_call(buffer);
            let name = &self.names[number];
            let file = Beside::write(name, &lists.file(name)?)?;
            Ok((Weighed::of(&lists), file))
        })
    }

    /// What is stored, or what fixtures leave of it, and then how many points they changed.
    fn by_layers(
        &self,
        stored: &Stored,
        raked: Option<&Raked>,
        workers: usize,
    ) -> Result<(Found, Option<u64>), Failure> {
        let grid: &dyn Layered = match raked {
            Some(raked) => raked,
            None => stored,
        };
        // Refusals of dimensions come before a file of any length is read.
        let of_the_whole = match (self.plan, self.wanted) {
            (None, Wanted::OpenFiles | Wanted::NotClosed) => None,
            _ => Some(self.whole_asked(grid)?),
        };
        let before = stored.digest()?;
        let mut asked = of_the_whole.unwrap_or_default();
        let mut blocks = Vec::new();
        if self.wanted != Wanted::ClosedFiles {
            let (files, of_the_files) = self.files_by_layers(grid, workers)?;
            blocks = files;
            // Without a plan the whole is the only block, and was asked as it was meshed.
            if self.plan.is_none() {
                asked = of_the_files;
            }
        }
        let measured = self.measured_by_layers(grid)?;
        let mut needed = asked.needed.indices / 3;
        if self.wanted == Wanted::ClosedFiles {
            match &measured.closed {
                Some(Err((number, words))) => {
                    return Err(Failure::refused(self.whole_in_words(), *number, words))
                }
                Some(Ok(bed)) => needed = bed.triangles,
                None => {}
            }
            let source = Closed {
                open: grid,
                whole: self.whole,
                wall: bed::wall_for(measured.looked.deepest),
            };
            blocks = self.files_by_layers(&source, workers)?.0;
        }
        let points_cut = raked.map(Raked::points_cut).transpose()?;
        // The manifest and the page say what the meshes were made of.
        if stored.digest()? != before {
            return Err(stored.changed());
        }
        let found = Found {
            needed,
            enclosed: asked.enclosed,
            blocks,
            measured,
            digest: Some(before),
        };
        Ok((found, points_cut))
    }

    /// The files of all blocks, and what was asked of the last one.
    fn files_by_layers(
        &self,
        grid: &dyn Layered,
        workers: usize,
    ) -> Result<(Vec<(Weighed, Beside)>, Asked), Failure> {
        let steps = layered::steps(2, &self.file_blocks);
        let meshed = blocks::on_cores(
            self.file_blocks.len(),
            workers,
            steps,
            |number, _: &mut (), report| {
                let work = Work {
                    grid,
                    block: self.file_blocks[number],
                    place: self.place(number),
                    report,
                };
                written(&work, &self.names[number])
            },
        )?;
        let mut asked = Asked::default();
        let mut files = Vec::new();
        for (weighed, file, of_the_block) in meshed {
            asked = of_the_block;
            files.push((weighed, file));
        }
        Ok((files, asked))
    }

    fn measured_by_layers(&self, grid: &dyn Layered) -> Result<Measured, Failure> {
        let all = Block {
            max: grid.header().highest(),
            ..Block::default()
        };
        let steps = layered::steps(1, &[all, self.closed_box()]);
        let measured = blocks::on_cores(1, 1, steps, |_, _: &mut (), report| {
            let looked = measuring::look(grid, &self.whole, None, &self.whole_in_words(), report)?;
            let wall = bed::wall_for(looked.deepest);
            let closed = match self.wanted {
                Wanted::NotClosed => None,
                _ => Some(match measuring::closable(&self.whole, wall) {
                    Err(refusal) => Err(refusal),
                    Ok(()) => {
                        let source = Closed {
                            open: grid,
                            whole: self.whole,
                            wall,
                        };
                        Ok(measuring::weigh_by_layers(&source, report)?)
                    }
                }),
            };
            Ok(Measured { looked, closed })
        })?;
        Ok(measured
            .into_iter()
            .next()
            .expect("one job gives one result"))
    }

    /// What is asked of the whole before its blocks are meshed.
    fn whole_asked(&self, grid: &dyn Layered) -> Result<Asked, Failure> {
        let steps = layered::steps(1, &[self.whole]);
        let asked = blocks::on_cores(1, 1, steps, |_, _: &mut (), report| {
            let work = Work {
                grid,
                block: self.whole,
                place: self.whole_in_words(),
                report,
            };
            let mut enclosing = Enclosing::of(grid.header().dims, self.whole);
            let needed = work.walk(|taken| {
                report(taken.lists.vertices());
                enclosing
                    .add(taken.z, taken.distances)
                    .map_err(|refusal| work.refused(refusal.number(), refusal))
            })?;
            Ok(Asked {
                needed,
                enclosed: enclosing.enclosed,
            })
        })?;
        Ok(asked.into_iter().next().unwrap_or_default())
    }
}

/// What a walk over the layers of a block tells of it.
#[derive(Default)]
struct Asked {
    needed: Counts,
    enclosed: bool,
}

/// Meshes a block layer by layer to a file beside this name, weighs it and asks whether it is enclosed.
fn written(work: &Work, name: &Path) -> Result<(Weighed, Beside, Asked), Failure> {
    let begun = work.vertices(name)?;
    let (vertices, triangles) = (begun.vertices, begun.triangles);
    let mut weight = weighing::InLayers::default();
    let mut enclosing = Enclosing::of(work.grid.header().dims, work.block);
    let file = work.triangles(begun, |taken| {
        weight.add(&taken.lists);
        enclosing
            .add(taken.z, taken.distances)
            .map_err(|refusal| work.refused(refusal.number(), refusal))
    })?;
    let weighed = Weighed {
        vertices: vertices as usize,
        triangles: triangles as usize,
        weight: weight.weight,
    };
    let asked = Asked {
        needed: Counts {
            vertices: vertices.into(),
            indices: 3 * u64::from(triangles),
        },
        enclosed: enclosing.enclosed,
    };
    Ok((weighed, file, asked))
}
