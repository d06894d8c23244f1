//! Why the command stopped, in words, and its exit status.

use std::fmt;
use std::path::Path;

#[derive(Debug)]
pub enum Failure {
    /// The library refused what stands at this place, with this number and words.
    Refused {
        place: String,
        number: u32,
        words: String,
    },
    /// The library's checker says that the blocks are no plan of the whole, and names this edge.
    NoPlan { place: String, witness: String },
    /// The words of the command line are wrong.
    Use(String),
    /// A file cannot be read or written, or does not hold what it should.
    File { place: String, reason: String },
    /// The text of the answer could not be written.
    Output(String),
}

impl Failure {
    pub fn file(path: &Path, reason: impl ToString) -> Self {
        Failure::File {
            place: path.display().to_string(),
            reason: reason.to_string(),
        }
    }

    pub fn refused(place: impl ToString, number: u32, words: impl ToString) -> Self {
        Failure::Refused {
            place: place.to_string(),
            number,
            words: words.to_string(),
        }
    }

    /// 1 refused by the library, 2 wrong use or no file.
    pub fn status(&self) -> u8 {
        match self {
            Failure::Refused { .. } | Failure::NoPlan { .. } => 1,
            Failure::Use(_) | Failure::File { .. } | Failure::Output(_) => 2,
        }
    }
}

impl fmt::Display for Failure {
    fn fmt(&self, out: &mut fmt::Formatter) -> fmt::Result {
        match self {
            Failure::Refused {
                place,
                number,
                words,
            } => write!(out, "{place}: refused {number}: {words}"),
            Failure::NoPlan { place, witness } => write!(out, "{place}: no plan: {witness}"),
            Failure::Use(words) => out.write_str(words),
            Failure::File { place, reason } => write!(out, "{place}: {reason}"),
            Failure::Output(reason) => write!(out, "standard output: {reason}"),
        }
    }
}
