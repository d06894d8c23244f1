//! What several commands are asked in the same words: the grid, and files that are read and written.

use crate::arguments::Arguments;
use crate::failure::Failure;
use crate::grid::{self, Source, Stored};
use crate::names;
use crate::numbers::{Header, Numbers};
use crate::scale::Scale;
use std::fs;
use std::path::Path;

pub const GRID_OPTIONS: [&str; 2] = ["--dims", "--type"];

/// These options and those of a grid.
pub fn options<const N: usize>(own: [&'static str; N]) -> Vec<&'static str> {
    own.into_iter().chain(GRID_OPTIONS).collect()
}

/// Opens the grid that stands at this place; its bytes are hashed as they are read, where that is asked.
pub fn open_grid(arguments: &Arguments, place: usize, hashed: bool) -> Result<Source, Failure> {
    let named = arguments.text("--type");
    let numbers = Numbers::named(named.unwrap_or("float32"))
        .ok_or_else(|| arguments.wrong("--type wants float32, int16 or int8"))?;
    let dims = arguments.numbers("--dims")?;
    if named.is_some() && dims.is_none() {
        return Err(arguments.wrong("--type is for raw numbers and wants --dims"));
    }
    grid::open(
        arguments.file(place),
        dims.map(|dims| Header { dims, numbers }),
        hashed,
    )
}

/// Opens the grid that stands at this place once more, to be read from its file. A pipe would wait for another writer.
pub fn open_stored(arguments: &Arguments, place: usize) -> Result<Stored, Failure> {
    let path = arguments.file(place);
    if !fs::metadata(path).is_ok_and(|found| found.is_file()) {
        return Err(Failure::file(path, grid::ONCE));
    }
    open_grid(arguments, place, false)?.stored()
}

/// A file that is written is none that is read and no other that is written.
pub fn apart<'a>(
    arguments: &Arguments,
    read: impl IntoIterator<Item = &'a Path>,
    written: impl IntoIterator<Item = &'a Path>,
) -> Result<(), Failure> {
    names::apart(read, written).map_err(|reason| arguments.wrong(reason))
}

/// The metres of a grid step, one number for all axes or three, and of the grid's point 0,0,0.
pub fn scale(arguments: &Arguments) -> Result<Option<Scale>, Failure> {
    let step = match arguments.reals("--step") {
        None => None,
        Some(read) => Some(match read.as_deref() {
            Some(&[all]) if all > 0.0 => [all; 3],
            Some(&[x, y, z]) if x > 0.0 && y > 0.0 && z > 0.0 => [x, y, z],
            _ => {
                let wanted = "--step wants the metres of a grid step, above zero: one number, or three with commas between them";
                return Err(arguments.wrong(wanted));
            }
        }),
    };
    let origin = match arguments.reals("--origin") {
        None => [0.0; 3],
        Some(read) => match (read.as_deref(), step) {
            (_, None) => return Err(arguments.wrong("--origin is in metres and wants --step")),
            (Some(&[x, y, z]), _) => [x, y, z],
            _ => {
                return Err(arguments.wrong(
                    "--origin wants the metres of the grid's point 0,0,0: three numbers with commas between them",
                ))
            }
        },
    };
    Ok(step.map(|step| Scale { step, origin }))
}
