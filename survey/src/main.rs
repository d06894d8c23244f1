//! The command `bed`: grids, plans and fixtures read from files, handed to the proved library, and what it answers
//! written to files and said in words. Nothing is worked out here that a function of the library works out.

mod arguments;
mod asked;
mod bed_page;
mod blocks;
mod budget;
mod columns;
mod commands;
mod counting;
mod distances;
mod enclosing;
mod explained;
mod failure;
mod fixtures;
mod grid;
mod help;
mod json;
mod judged;
mod kept;
mod layered;
mod layers_of;
mod levelled;
mod lines;
mod machine;
mod manifest;
mod measuring;
mod mesh;
mod meshing;
mod moved;
mod names;
mod npy;
mod numbers;
mod page;
mod plan;
mod planned;
mod ply;
mod progress;
mod records;
mod said;
mod scale;
mod sha256;
mod sheets;
mod signals;
mod survey;
mod told;
mod weighing;
mod words;

use failure::Failure;
use std::env;
use std::io::{self, Write};
use std::process::ExitCode;

fn main() -> ExitCode {
    signals::before_the_end(kept::remove_begun);
    let words: Vec<_> = env::args_os().skip(1).collect();
    match commands::run(&words).and_then(|said| say(&said.text).map(|()| said.status)) {
        Ok(status) => ExitCode::from(status),
        Err(failure) => {
            // A status still tells of the failure where the error stream is closed.
            let _ = writeln!(io::stderr(), "bed: {failure}");
            ExitCode::from(failure.status())
        }
    }
}

/// `println!` would panic where the output is closed.
fn say(text: &str) -> Result<(), Failure> {
    let mut out = io::stdout().lock();
    out.write_all(text.as_bytes())
        .and_then(|()| out.flush())
        .map_err(|error| Failure::Output(error.to_string()))
}
