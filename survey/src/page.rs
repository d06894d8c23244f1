//! The page of a survey: what was found, and of each thing what it rests on.

use crate::lines::Lines;
use crate::measuring::Measured;
use crate::mesh::Lists;
use crate::numbers::Header;
use crate::scale::Scale;
use crate::words::letters;
use crate::{bed_page, records, weighing};
use bed::{Block, WeighError, Weight};
use std::path::{Path, PathBuf};

/// The mesh of one block in numbers.
pub struct Weighed {
    pub vertices: usize,
    pub triangles: usize,
    pub weight: Result<Weight, WeighError>,
}

impl Weighed {
    pub fn of(lists: &Lists) -> Self {
        Self {
            vertices: lists.vertices(),
            triangles: lists.triangles(),
            weight: weighing::of(lists),
        }
    }
}

pub struct Page<'a> {
    pub name: &'a Path,
    pub header: Header,
    /// Whether the grid stayed in its file and was taken layer by layer.
    pub by_layers: bool,
    /// And how many points they changed.
    pub fixtures: Option<(&'a Path, u64)>,
    pub plan: Option<&'a Path>,
    pub whole: Block,
    /// The plan's, in the grid's own coordinates.
    pub blocks: &'a [Block],
    pub scale: Option<Scale>,
    /// Whether the files hold the closed bed.
    pub closed_files: bool,
    /// So many steps from a vertex of the files to where it stands in the grid.
    pub offset: [i64; 3],
    /// The triangles of the whole's own call.
    pub needed: u64,
    /// Whether the open grid is enclosed as it is.
    pub enclosed: bool,
    pub weighed: &'a [Weighed],
    pub measured: &'a Measured,
    /// Whether the sums of the closed bed's files are its volume.
    pub adds_up: bool,
    pub names: &'a [PathBuf],
    pub levels: Option<&'a Path>,
    pub json: Option<&'a Path>,
    /// Of a survey in blocks.
    pub manifest: Option<&'a Path>,
    /// How many files of an older survey under the same name were removed.
    pub removed: usize,
}

impl Page<'_> {
    pub fn lines(&self) -> Lines {
        let mut lines = Lines::default();
        let of_the_bed = bed_page::Told {
            whole: &self.whole,
            blocks: self.blocks,
            in_blocks: self.plan.is_some(),
            scale: self.scale.as_ref(),
            measured: self.measured,
        };
        if !self.adds_up {
            lines.found(
                "WRONG",
                "the sums of the closed bed's files are not its volume: do not act on either",
            );
        }
        of_the_bed.first(&mut lines);
        self.grid(&mut lines);
        of_the_bed.closed(&mut lines);
        of_the_bed.volume(&mut lines);
        of_the_bed.cross_check(&mut lines);
        of_the_bed.levels(&mut lines);
        self.mesh(&mut lines);
        self.files(&mut lines);
        of_the_bed.levels_of_blocks(&mut lines);
        lines.found(
            "outside the proofs",
            "this command, the files it reads and writes, that its archive is the proved one",
        );
        lines
    }

    fn grid(&self, lines: &mut Lines) {
        let [x, y, z] = self.header.dims;
        lines.found(
            "grid",
            format!(
                "{}: {x} x {y} x {z} points, {}",
                self.name.display(),
                self.header.numbers.name()
            ),
        );
        if let Some(Scale { step, origin }) = self.scale {
            let [x, y, z] = step;
            let [a, b, c] = origin;
            lines.found(
                "metres",
                format!("a step is {x}, {y}, {z}; the grid's point 0,0,0 stands at {a}, {b}, {c}"),
            );
        }
        let (min, max) = (self.whole.min, self.whole.max);
        lines.found(
            "box",
            format!(
                "{min:?} to {max:?}, max planes {}",
                letters(self.whole.max_plane)
            ),
        );
        if self.by_layers {
            lines.found(
                "layers",
                "taken one by one, since in memory the grid takes more than --memory",
            );
            lines.rests("proved: what all layers bring out, joined, is what the whole call makes");
            lines.rests("compared: each block's vertices, made two times, and the grid's digest before the first time and after the last");
        }
        if let Some((fixtures, points)) = self.fixtures {
            let changed = match points {
                0 => "NO POINT CHANGED: they lie outside the grid, or where there is no sludge"
                    .into(),
                _ => format!("{points} of {} points changed", self.header.points()),
            };
            lines.found(
                "fixtures",
                format!("{}: cut out, {changed}", fixtures.display()),
            );
            lines.rests("proved: a point takes the negated value of the solid where that is greater, and else stays");
            lines.rests("proved: the layers, cut one by one, are the grid cut at once");
            lines.rests("counted: the points whose distance is another than before");
            lines.rests("not claimed: that the fixtures stand where the rake does");
        }
        if let Some(plan) = self.plan {
            lines.found(
                "plan",
                format!("{}: yes, {} blocks", plan.display(), self.weighed.len()),
            );
            lines.rests(
                "proved: the blocks make each face of the whole once, none lost and none doubled",
            );
        }
    }

    fn mesh(&self, lines: &mut Lines) {
        let vertices: usize = self.weighed.iter().map(|one| one.vertices).sum();
        let triangles: usize = self.weighed.iter().map(|one| one.triangles).sum();
        let of = match (self.closed_files, self.enclosed) {
            (true, _) => "of the closed bed",
            (false, true) => "of the open bed, all of whose points below zero lie inside: from min + 1 to max - 2",
            (false, false) => "of the open bed: points below zero lie at the sides of the box, and there it has an edge",
        };
        lines.found(
            "mesh",
            format!("{vertices} vertices, {triangles} triangles in the files, {of}"),
        );
        lines.rests(
            "proved: positions, normals and triangles are the rules' own, every number is finite",
        );
        lines.rests("proved: every vertex lies in its own cell");
        if self.plan.is_some() {
            let whole = self.needed;
            let same = if whole == triangles as u64 {
                "as many"
            } else {
                "NOT as many"
            };
            lines.rests(format!(
                "counted: {same} triangles as the whole needs, {whole}"
            ));
            lines.rests("counted: vertices of cells that two blocks hold, in both");
        }
        lines.rests("not claimed: that the distances are those of the sludge, that the mesh does not cross itself");
        if self.closed_files {
            if self.adds_up {
                lines.rests("counted: the sums of the files are the volume");
            }
            self.moved(lines);
        }
    }

    /// Where the vertices of a closed bed stand.
    fn moved(&self, lines: &mut Lines) {
        let [x, y, z] = self.offset;
        let mut words = format!("a vertex stands in the grid {x}, {y}, {z} steps from where the file has it: the border takes a step on each axis");
        if let Some(scale) = &self.scale {
            let [a, b, c] = scale.moved(self.offset).origin;
            words += &format!("; the files' own point 0,0,0 is at {a}, {b}, {c} metres");
        }
        lines.found("vertices", words);
        lines.rests("proved: the closed grid has the distance of x, y, z at x + 1, y + 1, z + 1");
    }

    fn files(&self, lines: &mut Lines) {
        match self.names {
            [] => lines.found("files", "none: the plan has no block"),
            [one] => lines.found("file", one.display().to_string()),
            [first, .., last] => lines.found(
                "files",
                format!("{} to {}", first.display(), last.display()),
            ),
        }
        if !self.names.is_empty() {
            lines.rests(if self.by_layers {
                records::RESTS
            } else {
                "proved: read back, a file gives the same bits, and every shorter beginning is refused"
            });
            lines.rests("not claimed: that the disk keeps what it was told to sync");
        }
        for (name, file) in [("levels", self.levels), ("json", self.json)] {
            if let Some(file) = file {
                lines.found(
                    match name {
                        "levels" => "levels file",
                        _ => "json file",
                    },
                    file.display().to_string(),
                );
            }
        }
        if let Some(manifest) = self.manifest {
            lines.found("manifest", manifest.display().to_string());
            lines.rests("written last: the digests of grid, plan and files; a file that it does not name is not of this survey");
        }
        if self.removed > 0 {
            lines.found(
                "removed",
                format!("{} files of an older survey under this name", self.removed),
            );
        }
    }
}
