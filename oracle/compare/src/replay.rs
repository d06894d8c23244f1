//! Replays stored answers on the library: the list as it was stored, and the list with changed bits.

use crate::guarded::Guarded;
use crate::library;
use oracle::call::Call;
use oracle::stored::{from_bytes, old_contents, stored, StoredCall};
use std::path::Path;
use std::{fs, io};

/// Replays both lists of a folder and prints how many calls disagree. True if none of the first does
/// and, of the second, exactly those that were changed.
pub fn run(folder: &Path) -> io::Result<bool> {
    let stored = read(&folder.join("answers.bin"))?;
    let changed = read(&folder.join("answers-changed.bin"))?;
    let disagreeing = |calls: &[StoredCall]| calls.iter().filter(|call| !agrees(call)).count();
    let (wrong, seen) = (disagreeing(&stored), disagreeing(&changed));
    let planted = stored.iter().zip(&changed).filter(|(a, b)| a != b).count();
    println!("stored answers: {} calls, {wrong} disagree", stored.len());
    println!(
        "stored answers with changed bits: {} calls, {seen} disagree, {planted} should",
        changed.len()
    );
    Ok(wrong == 0 && seen == planted && planted > 0)
}

fn read(path: &Path) -> io::Result<Vec<StoredCall>> {
    let bytes = fs::read(path)?;
    from_bytes(&bytes)
        .ok_or_else(|| io::Error::other(format!("{}: cut short or too long", path.display())))
}

fn agrees(call: &StoredCall) -> bool {
    let grid: Vec<f32> = call.grid.iter().map(|&bits| f32::from_bits(bits)).collect();
    let asked = Call {
        grid: &grid,
        dims: call.dims,
        min: call.min,
        max: call.max,
        max_plane: call.max_plane,
    };
    let mut buffers = old_contents(&call.room()).each(Guarded::holding);
    let answered = library::run(&asked, buffers.by_mut().each(Guarded::contents));
    let mut kept = stored(buffers).into_iter().zip(&call.after);
    answered == call.verdict && kept.all(|(is, wanted)| is.first_difference(wanted).is_none())
}
