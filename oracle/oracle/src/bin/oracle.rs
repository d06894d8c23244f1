//! The oracle's program: stores answers and shows differences.
//!
//! `oracle store FOLDER` writes answers.bin and answers-changed.bin to the folder and prints what they
//! hold. The second has the same calls with one bit of one expectation changed in some of them, so
//! that whoever replays the first can show that it would see a difference.
//!
//! `oracle differences` runs the Rust on the inputs where it and document 01 part.

use oracle::cases::{self, Case};
use oracle::model::{cells, corners, crossings};
use oracle::stored::{to_bytes, StoredCall};
use std::collections::BTreeSet;
use std::path::Path;
use std::process::ExitCode;
use std::{env, fs, io};

/// Limits that a reader without a heap relies on.
const LONGEST_BUFFER: usize = 512;
const LONGEST_GRID: usize = 256;
const LARGEST_FILE: usize = 512 * 1024;

fn main() -> ExitCode {
    let words: Vec<String> = env::args().skip(1).collect();
    match words.iter().map(String::as_str).collect::<Vec<_>>()[..] {
        ["store", folder] => match store(Path::new(folder)) {
            Ok(()) => ExitCode::SUCCESS,
            Err(error) => {
                eprintln!("{folder}: {error}");
                ExitCode::FAILURE
            }
        },
        ["differences"] => {
            oracle::differences::show();
            ExitCode::SUCCESS
        }
        _ => {
            eprintln!("usage: oracle store FOLDER | oracle differences");
            ExitCode::from(2)
        }
    }
}

fn store(folder: &Path) -> io::Result<()> {
    let cases = cases::all();
    let calls: Vec<StoredCall> = cases.iter().map(Case::ask).collect();
    let mut changed = calls.clone();
    change_one_bit_of_some(&mut changed);
    for list in [&calls, &changed] {
        assert_small(list);
    }
    assert_cover(&cases, &calls);
    fs::create_dir_all(folder)?;
    fs::write(folder.join("answers.bin"), to_bytes(&calls))?;
    fs::write(folder.join("answers-changed.bin"), to_bytes(&changed))?;
    print_groups(&cases, &calls);
    let disagreeing = calls.iter().zip(&changed).filter(|(a, b)| a != b).count();
    println!(
        "answers-changed.bin: {disagreeing} of {} calls disagree",
        calls.len()
    );
    Ok(())
}

fn assert_small(calls: &[StoredCall]) {
    for call in calls {
        assert!(call.grid.len() <= LONGEST_GRID);
        assert!(call
            .after
            .iter()
            .all(|buffer| buffer.len() <= LONGEST_BUFFER));
    }
    assert!(to_bytes(calls).len() <= LARGEST_FILE);
}

/// Every answer comes up, and every number of crossings that a cell can have.
fn assert_cover(cases: &[Case], calls: &[StoredCall]) {
    for answer in 0..8 {
        assert!(calls.iter().any(|call| call.verdict.answer == answer));
    }
    let crossings: BTreeSet<usize> = (cases.iter().zip(calls))
        .filter(|(_, stored)| accepted(stored))
        .flat_map(|(case, _)| {
            cells(&case.view())
                .map(|cell| crossings(&corners(&case.view(), cell)))
                .collect::<Vec<_>>()
        })
        .collect();
    assert!([3, 4, 5, 6, 7, 8, 9, 12]
        .iter()
        .all(|number| crossings.contains(number)));
}

fn print_groups(cases: &[Case], calls: &[StoredCall]) {
    println!(
        "answers.bin: {} calls, {} bytes",
        calls.len(),
        to_bytes(calls).len()
    );
    for group in cases.chunk_by(|a, b| a.group == b.group) {
        println!("    {}: {}", group[0].group, group.len());
    }
    let by_answer: [usize; 8] = std::array::from_fn(|answer| {
        calls
            .iter()
            .filter(|c| c.verdict.answer == answer as u32)
            .count()
    });
    println!("    by answer 0 to 7: {by_answer:?}");
}

/// In calls of their own: a written and a kept number of each buffer, the answer, V and I, and a kept
/// number of each buffer of a refused call.
fn change_one_bit_of_some(calls: &mut [StoredCall]) {
    let mut free: Vec<&mut StoredCall> = calls.iter_mut().collect();
    for buffer in 0..6 {
        take(&mut free, |call| call.verdict.indices > 0 && accepted(call)).after[buffer][0] ^= 1;
        let call = take(&mut free, |call| {
            accepted(call) && !call.after[buffer].is_empty()
        });
        *call.after[buffer].last_mut().expect("it is not empty") ^= 1 << 31;
        let call = take(&mut free, |call| {
            !accepted(call) && call.after[buffer].len() > 1
        });
        call.after[buffer][1] ^= 1 << 7;
    }
    take(&mut free, accepted).verdict.answer ^= 1;
    take(&mut free, |call| !accepted(call)).verdict.answer ^= 4;
    take(&mut free, accepted).verdict.vertices ^= 1;
    take(&mut free, |call| call.verdict.answer == 6)
        .verdict
        .vertices ^= 8;
    take(&mut free, accepted).verdict.indices ^= 2;
    take(&mut free, |call| call.verdict.answer == 7)
        .verdict
        .indices ^= 1;
}

fn accepted(call: &StoredCall) -> bool {
    call.verdict.answer == 0
}

/// Removes and returns the first of the calls left that will do.
fn take<'a>(
    free: &mut Vec<&'a mut StoredCall>,
    will_do: impl Fn(&StoredCall) -> bool,
) -> &'a mut StoredCall {
    let place = free
        .iter()
        .position(|call| will_do(call))
        .expect("there are calls enough");
    free.remove(place)
}
