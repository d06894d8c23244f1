//! `bed mesh`: one box of a grid, in memory or layer by layer.

use crate::arguments::Arguments;
use crate::asked::{apart, open_grid, open_stored, options};
use crate::budget::InMemory;
use crate::failure::Failure;
use crate::grid::{Grid, Stored};
use crate::judged::accepted;
use crate::layered::{self, Work};
use crate::{blocks, kept, mesh, ply};
use bed::Block;
use std::ffi::OsString;
use std::path::Path;

pub fn mesh(words: &[OsString]) -> Result<String, Failure> {
    let arguments = Arguments::read(
        "mesh",
        words,
        1,
        &options(["-o", "--box", "--max-plane", "--ply", "--memory"]),
    )?;
    let (name, output) = (arguments.file(0), arguments.output()?);
    let corners = arguments.numbers("--box")?;
    let max_plane = arguments.max_plane()?;
    let memory = arguments.memory()?;
    let viewed = arguments.path("--ply");
    apart(
        &arguments,
        [name],
        [Some(output), viewed].into_iter().flatten(),
    )?;
    let source = open_grid(&arguments, 0, false)?;
    let [x0, y0, z0, x1, y1, z1] = corners.unwrap_or_else(|| {
        let [x, y, z] = source.header.highest();
        [0, 0, 0, x, y, z]
    });
    let meshed = Meshed {
        name,
        block: Block {
            min: [x0, y0, z0],
            max: [x1, y1, z1],
            max_plane,
        },
        output,
        viewed,
    };
    let in_memory = InMemory {
        count: source.count(),
        numbers: source.header.numbers,
        floats: false,
        viewed: viewed.is_some(),
    };
    if !in_memory.fits(memory) {
        return meshed.by_layers(&source.stored()?);
    }
    let grid = source.whole(false)?;
    let needed = accepted(&grid, &meshed.block, || meshed.place())?;
    if in_memory.workers(memory, needed) > 0 {
        return meshed.in_memory(&grid);
    }
    drop(grid);
    meshed.by_layers(&open_stored(&arguments, 0)?)
}

pub fn counted(vertices: u64, triangles: u64) -> String {
    format!("vertices {vertices} triangles {triangles}\n")
}

/// What `bed mesh` is to do.
struct Meshed<'a> {
    name: &'a Path,
    block: Block,
    output: &'a Path,
    viewed: Option<&'a Path>,
}

impl Meshed<'_> {
    fn place(&self) -> String {
        self.name.display().to_string()
    }

    fn in_memory(&self, grid: &Grid) -> Result<String, Failure> {
        let place = |_| self.place();
        let said = blocks::mesh_all(grid, &[self.block], 1, place, |_, buffer| {
            let lists = mesh::of_call(buffer);
            let file = lists.file(self.output)?;
            let mut files = vec![kept::Beside::write(self.output, &file)?];
            if let Some(viewed) = self.viewed {
                files.push(kept::Beside::write(viewed, &ply::written(&lists))?);
            }
            kept::rename(files)?;
            Ok(counted(lists.vertices() as u64, lists.triangles() as u64))
        })?;
        Ok(said.concat())
    }

    fn by_layers(&self, grid: &Stored) -> Result<String, Failure> {
        let steps = layered::steps(2, &[self.block]);
        let said = blocks::on_cores(1, 1, steps, |_, _: &mut (), report| {
            let work = Work {
                grid,
                block: self.block,
                place: self.place(),
                report,
            };
            let begun = work.vertices(self.output)?;
            let (vertices, triangles) = (begun.vertices.into(), begun.triangles.into());
            let viewed = self.viewed;
            let mut viewed = viewed
                .map(|name| ply::InParts::create(name, vertices, triangles))
                .transpose()?;
            let mut files = vec![work.triangles(begun, |taken| match &mut viewed {
                Some(viewed) => viewed.add(&taken.lists),
                None => Ok(()),
            })?];
            if let Some(viewed) = viewed {
                files.push(viewed.synced()?);
            }
            kept::rename(files)?;
            Ok(counted(vertices, triangles))
        })?;
        Ok(said.concat())
    }
}
