//! Fixtures (document 02, request 11): files of records, which the library reads, or texts that mean them:
//!
//! ```text
//! difference {
//!     box 40 6 8 42 8 20          # low x y z, high x y z
//!     union { box 40 6 8 41 7 9  box 41 7 9 42 8 10 }
//! }
//! ```
//!
//! in grid steps, or in metres with the metres of a step, from where the grid's own are. Nesting, counts and sizes of numbers are the library's to judge.

use crate::failure::Failure;
use crate::scale::Scale;
use crate::sha256::Digest;
use std::fs;
use std::path::{Path, PathBuf};

/// The records of fixtures, and the file that they came from.
pub struct Fixtures {
    pub path: PathBuf,
    pub records: Vec<u8>,
    /// Of the file.
    pub digest: Digest,
}

impl Fixtures {
    /// A refusal of the records, with the name of their file.
    pub fn refused(&self, refusal: bed::FixtureRefusal) -> Failure {
        Failure::refused(self.path.display(), refusal.number(), refusal)
    }
}

const BOX: u32 = 1;
const UNION: u32 = 2;
const INTERSECTION: u32 = 3;
const DIFFERENCE: u32 = 4;

/// Deeper groups than the library takes are still read, so that it refuses them; but not without end.
const DEEPEST: usize = 64;

/// Reads a file of records, or a text. The text's numbers are metres where the metres of a step are given; records, which are in
/// grid steps, are then refused.
pub fn read(path: &Path, scale: Option<&Scale>) -> Result<Fixtures, Failure> {
    let (fixtures, text) = read_any(path, scale)?;
    if scale.is_some() && !text {
        return Err(Failure::file(
            path,
            "holds records, which are in grid steps; --step is for fixtures as text",
        ));
    }
    Ok(fixtures)
}

/// The same for a survey, whose metres are for more than its fixtures: records stay in grid steps. And whether it was a text.
pub fn read_any(path: &Path, scale: Option<&Scale>) -> Result<(Fixtures, bool), Failure> {
    let bytes = fs::read(path).map_err(|error| Failure::file(path, error))?;
    let digest = Digest::of(&bytes);
    let (records, text) = match text_of(&bytes) {
        Some(text) => {
            let records = said_by(text, scale).map_err(|(line, reason)| Failure::File {
                place: format!("{}, line {line}", path.display()),
                reason,
            })?;
            (records, true)
        }
        None => (bytes, false),
    };
    let fixtures = Fixtures {
        path: path.to_path_buf(),
        records,
        digest,
    };
    Ok((fixtures, text))
}

/// A text, and no records: every record holds bytes of zero, and a text none.
fn text_of(bytes: &[u8]) -> Option<&str> {
    let first = *bytes.first()?;
    let text = std::str::from_utf8(bytes).ok()?;
    (first >= b'\t' && !bytes.contains(&0)).then(|| text.trim_start_matches('\u{feff}'))
}

/// The records that a text means, or the number of the bad line and what is wrong with it.
fn said_by(text: &str, scale: Option<&Scale>) -> Result<Vec<u8>, (usize, String)> {
    let mut words = Words::of(text);
    let mut records = Vec::new();
    solid(&mut words, scale, 1, &mut records)?;
    match words.next() {
        None => Ok(records),
        Some((line, word)) => Err((
            line,
            format!("{word:?} stands after the solid: the file is one solid, such as a union"),
        )),
    }
}

/// The words of a text with their lines; a brace is a word.
struct Words<'a> {
    words: std::vec::IntoIter<(usize, &'a str)>,
    last: usize,
}

impl<'a> Words<'a> {
    fn of(text: &'a str) -> Self {
        let mut words = Vec::new();
        for (place, line) in text.lines().enumerate() {
            let said = line.split('#').next().unwrap_or("");
            for word in said.split_whitespace() {
                let parts = word.split_inclusive(['{', '}']).flat_map(|part| {
                    let end = part.strip_suffix(['{', '}']).map_or(part.len(), str::len);
                    [&part[..end], &part[end..]]
                });
                words.extend(
                    parts
                        .filter(|part| !part.is_empty())
                        .map(|part| (place + 1, part)),
                );
            }
        }
        Self {
            words: words.into_iter(),
            last: text.lines().count().max(1),
        }
    }

    fn next(&mut self) -> Option<(usize, &'a str)> {
        self.words.next()
    }

    fn wanted(&mut self, what: &str) -> Result<(usize, &'a str), (usize, String)> {
        let last = self.last;
        self.next()
            .ok_or_else(|| (last, format!("the text ends where {what} is wanted")))
    }
}

const SOLID: &str = "box, union, intersection or difference";

fn solid(
    words: &mut Words,
    scale: Option<&Scale>,
    depth: usize,
    records: &mut Vec<u8>,
) -> Result<(), (usize, String)> {
    let (line, word) = words.wanted(SOLID)?;
    let kind = match word {
        "box" => return box_of(words, scale, records),
        "union" => UNION,
        "intersection" => INTERSECTION,
        "difference" => DIFFERENCE,
        other => return Err((line, format!("{other:?} stands where {SOLID} is wanted"))),
    };
    if depth >= DEEPEST {
        return Err((line, format!("a group stands deeper than {DEEPEST}")));
    }
    let (line, brace) = words.wanted("{")?;
    if brace != "{" {
        return Err((line, format!("{brace:?} stands where {{ is wanted")));
    }
    // The count is known when the members are.
    let place = records.len();
    record(records, [kind, 0, 0, 0, 0, 0, 0]);
    let mut count: u32 = 0;
    while words
        .words
        .as_slice()
        .first()
        .is_some_and(|(_, word)| *word != "}")
    {
        solid(words, scale, depth + 1, records)?;
        count += 1;
    }
    words.wanted("}")?;
    records[place + 4..place + 8].copy_from_slice(&count.to_le_bytes());
    Ok(())
}

fn box_of(
    words: &mut Words,
    scale: Option<&Scale>,
    records: &mut Vec<u8>,
) -> Result<(), (usize, String)> {
    let mut floats = [0; 6];
    for (place, float) in floats.iter_mut().enumerate() {
        let (line, word) = words.wanted("a number")?;
        let number = number(word, place % 3, scale);
        *float = number
            .ok_or_else(|| (line, format!("{word:?} stands where a number is wanted: a box has six, low x y z and high x y z")))?
            .to_bits();
    }
    let [a, b, c, d, e, f] = floats;
    record(records, [BOX, a, b, c, d, e, f]);
    Ok(())
}

/// The float that is next to a number of steps, or to what a number of metres on this axis is in steps.
fn number(word: &str, axis: usize, scale: Option<&Scale>) -> Option<f32> {
    let plain = word
        .bytes()
        .all(|byte| byte.is_ascii_digit() || b"+-.eE".contains(&byte));
    if !plain {
        return None;
    }
    match scale {
        None => word.parse().ok(),
        Some(scale) => Some(scale.steps(axis, word.parse().ok()?) as f32),
    }
}

fn record(records: &mut Vec<u8>, words: [u32; 7]) {
    records.extend(words.iter().chain([&0]).flat_map(|word| word.to_le_bytes()));
}

#[cfg(test)]
mod tests {
    use super::*;

    fn words(text: &str, step: f64) -> Vec<[u32; 8]> {
        let scale = Scale {
            step: [step; 3],
            origin: [0.0; 3],
        };
        let records = said_by(text, (step != 1.0).then_some(&scale)).unwrap();
        let words = records.chunks_exact(32).map(|record| {
            std::array::from_fn(|place| {
                u32::from_le_bytes(record[4 * place..4 * place + 4].try_into().unwrap())
            })
        });
        words.collect()
    }

    fn a_box(numbers: [f32; 6]) -> [u32; 8] {
        let [a, b, c, d, e, f] = numbers.map(f32::to_bits);
        [1, a, b, c, d, e, f, 0]
    }

    #[test]
    fn records() {
        let rake = a_box([40.0, 6.0, 8.0, 42.0, 8.0, 20.0]);
        assert_eq!(words("box 40 6 8 42 8 20", 1.0), [rake]);
        assert_eq!(
            words("box 4 0.6 .8 4.2 8e-1 2", 0.1),
            [a_box([40.0, 6.0, 8.0, 42.0, 8.0, 20.0])]
        );
        let text = "# a rake\ndifference { box 40 6 8 42 8 20\nunion{box -1 0 0 1 1 1 intersection { box 0 0 0 1 2 3 } }\n}";
        assert_eq!(
            words(text, 1.0),
            [
                [4, 2, 0, 0, 0, 0, 0, 0],
                rake,
                [2, 2, 0, 0, 0, 0, 0, 0],
                a_box([-1.0, 0.0, 0.0, 1.0, 1.0, 1.0]),
                [3, 1, 0, 0, 0, 0, 0, 0],
                a_box([0.0, 0.0, 0.0, 1.0, 2.0, 3.0]),
            ]
        );
        assert_eq!(words("union { }", 1.0), [[2, 0, 0, 0, 0, 0, 0, 0]]);
        let scale = Scale {
            step: [0.5, 0.25, 0.125],
            origin: [10.0, -2.0, 100.0],
        };
        let moved = said_by("box 11 -1.75 101 12 0 102", Some(&scale)).unwrap();
        assert_eq!(
            moved,
            said_by("box 2 1 8 4 8 16", None).unwrap(),
            "each axis by its own step and origin"
        );
    }

    #[test]
    fn bad_lines_are_named() {
        for (text, line) in [
            ("# nothing\n", 1),
            ("ball 1 2 3", 1),
            ("box 1 2 3 4 5", 1),
            ("box 1 2 3\n4 5 x", 2),
            ("box 1 2 3 4 5 nan", 1),
            ("box 1 2 3 4 5 6 7", 1),
            ("union {\nbox 1 2 3 4 5 6\n", 2),
            ("union\nbox 1 2 3 4 5 6 }", 2),
            ("box 1 2 3 4 5 6\n\nbox 1 2 3 4 5 6", 3),
        ] {
            assert_eq!(said_by(text, None).unwrap_err().0, line, "{text}");
        }
        assert!(said_by(&"union {".repeat(100_000), None).is_err());
    }

    #[test]
    fn text_or_records() {
        assert!(
            text_of(b"").is_none() && text_of(b"\x01").is_none() && text_of(b"A\0\0\0").is_none()
        );
        assert_eq!(text_of("\u{feff}box".as_bytes()), Some("box"));
        assert_eq!(text_of(b"# box"), Some("# box"));
    }
}
