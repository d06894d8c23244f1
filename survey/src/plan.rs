//! Plans as text: the whole on the first line, then a block a line, as `0 0 0 64 64 32 xz`: min, max and the letters
//! of the max planes, `-` for none. `#` begins a comment, and a line with nothing else is passed over; so is the mark that
//! some editors put at a text's head.

use crate::failure::Failure;
use crate::sha256::Digest;
use crate::words::{flags, letters, number};
use bed::{Block, MaxPlane};
use std::fs;
use std::path::Path;

#[derive(Debug)]
pub struct Plan {
    /// Of the file.
    pub digest: Digest,
    pub whole: Block,
    pub blocks: Vec<Block>,
    /// The line of each block.
    pub lines: Vec<usize>,
}

pub fn read(path: &Path) -> Result<Plan, Failure> {
    let bytes = fs::read(path).map_err(|error| Failure::file(path, error))?;
    read_text(&bytes).map_err(|(line, reason)| Failure::File {
        place: format!("{}, line {line}", path.display()),
        reason: reason.into(),
    })
}

fn read_text(bytes: &[u8]) -> Result<Plan, (usize, &'static str)> {
    let text = String::from_utf8_lossy(bytes);
    let mut plan = said_by(text.strip_prefix('\u{feff}').unwrap_or(&text))?;
    plan.digest = Digest::of(bytes);
    Ok(plan)
}

/// A plan of the whole grid in so many blocks on each axis, as text: on each axis the box is cut again and again, two pieces
/// sharing a layer of cells, so that all blocks have about as many cells of their own. Or the axis with too few cells.
pub fn made(dims: [u32; 3], counts: [u32; 3], max_plane: MaxPlane) -> Result<String, usize> {
    let mut pieces = Vec::new();
    for axis in 0..3 {
        let cells = u64::from(dims[axis].saturating_sub(1));
        let count = u64::from(counts[axis]);
        if count == 0 || count > cells.max(1) {
            return Err(axis);
        }
        let cut = |number: u64| (number * cells / count) as u32;
        let on_the_axis = (0..count).map(move |number| {
            let last = number + 1 == count;
            let end = if last {
                cells as u32
            } else {
                cut(number + 1) + 1
            };
            (cut(number), end, last)
        });
        pieces.push(on_the_axis.collect::<Vec<_>>());
    }
    let [x, y, z] = dims.map(|size| size.saturating_sub(1));
    let mut text = format!("0 0 0 {x} {y} {z} {}\n", letters(max_plane));
    for &(z0, z1, z_last) in &pieces[2] {
        for &(y0, y1, y_last) in &pieces[1] {
            for &(x0, x1, x_last) in &pieces[0] {
                let flags = letters(MaxPlane {
                    x: max_plane.x && x_last,
                    y: max_plane.y && y_last,
                    z: max_plane.z && z_last,
                });
                text += &format!("{x0} {y0} {z0} {x1} {y1} {z1} {flags}\n");
            }
        }
    }
    Ok(text)
}

/// The plan of a text that was [`made`].
pub fn of_text(text: &str) -> Plan {
    said_by(text).expect("a plan that was made is read")
}

/// The plan, or the number of the bad line and what is wrong with it.
fn said_by(text: &str) -> Result<Plan, (usize, &'static str)> {
    let mut boxes = Vec::new();
    let mut lines = Vec::new();
    for (place, line) in text.lines().enumerate() {
        let said = line.split('#').next().unwrap_or("").trim();
        if !said.is_empty() {
            boxes.push(block(said).ok_or((place + 1, WANTED))?);
            lines.push(place + 1);
        }
    }
    if boxes.is_empty() {
        return Err((text.lines().count().max(1), "the whole is missing"));
    }
    let whole = boxes.remove(0);
    lines.remove(0);
    Ok(Plan {
        digest: Digest::of(text.as_bytes()),
        whole,
        blocks: boxes,
        lines,
    })
}

const WANTED: &str =
    "is not six numbers and the letters of the max planes, as in: 0 0 0 64 64 32 xz";

fn block(line: &str) -> Option<Block> {
    let words: Vec<&str> = line.split_whitespace().collect();
    let (letters, numbers) = words.split_last()?;
    let numbers: Vec<u32> = numbers
        .iter()
        .map(|word| number(word))
        .collect::<Option<_>>()?;
    let [x0, y0, z0, x1, y1, z1] = numbers.try_into().ok()?;
    Some(Block {
        min: [x0, y0, z0],
        max: [x1, y1, z1],
        max_plane: flags(letters)?,
    })
}

#[cfg(test)]
mod tests {
    use super::*;

    /// Every plan that is made is one, by the library's checker, for every max plane.
    #[test]
    fn made_plans_hold() {
        let mut yes = 0;
        for dims in [[12, 9, 7], [2, 3, 41], [1, 5, 5], [100, 60, 40]] {
            for counts in [
                [1, 1, 1],
                [1, 2, 3],
                [1, 2, 4],
                [10, 5, 4],
                [1, 2, 40],
                [11, 1, 6],
            ] {
                for word in ["-", "x", "yz", "xyz"] {
                    let Ok(text) = made(dims, counts, flags(word).unwrap()) else {
                        continue;
                    };
                    let plan = of_text(&text);
                    assert_eq!(plan.blocks.len() as u32, counts.iter().product::<u32>());
                    assert_eq!(
                        bed::check_plan(&plan.blocks, &plan.whole),
                        Ok(true),
                        "{text}"
                    );
                    yes += 1;
                }
            }
        }
        assert!(yes > 30, "{yes}");
        assert_eq!(made([12, 9, 7], [12, 1, 1], MaxPlane::NONE), Err(0));
        assert_eq!(made([12, 9, 7], [11, 8, 0], MaxPlane::NONE), Err(2));
    }

    #[test]
    fn a_mark_at_the_head() {
        let plain = read_text(b"0 0 0 1 1 1 -\n0 0 0 1 1 1 -\n").unwrap();
        let marked = read_text(b"\xef\xbb\xbf0 0 0 1 1 1 -\n0 0 0 1 1 1 -\n").unwrap();
        assert_eq!((plain.whole, plain.blocks), (marked.whole, marked.blocks));
    }

    #[test]
    fn whole_blocks_and_comments() {
        let plan =
            said_by("# a tank\n0 0 0 6 4 4 xz # whole\n\n0 0 0 4 4 4 z\n3 0 0 6 4 4 zx\n").unwrap();
        assert_eq!((plan.whole.max, plan.blocks.len()), ([6, 4, 4], 2));
        assert_eq!(
            plan.whole.max_plane,
            MaxPlane {
                y: false,
                ..MaxPlane::ALL
            }
        );
        assert_eq!(plan.lines, [4, 5]);
        assert_eq!(
            said_by("0 0 0 1 1 1 -").unwrap().whole.max_plane,
            MaxPlane::NONE
        );
    }

    #[test]
    fn a_bad_line_is_named() {
        let line = |text: &str| said_by(text).unwrap_err().0;
        assert_eq!(line(""), 1);
        assert_eq!(line("# nothing\n# here"), 2);
        for bad in [
            "1 2 3 4 5 6",
            "1 2 3 4 5 x",
            "1 2 3 4 5 6 7 x",
            "1 2 3 4 5 6 xx",
            "1 2 3 4 5 6 a",
            "1 2 3 4 5 -6 x",
            "1 2 3 4 5 +6 x",
            "1 2 3 4 5 99999999999 x",
            "1 2 3 4 5 6.0 x",
        ] {
            assert_eq!(line(&format!("0 0 0 1 1 1 -\n# here\n{bad}\n")), 3, "{bad}");
        }
    }
}
