//! The manifest of a survey in blocks: a text beside the blocks' mesh files that says which files are its own, by their digests, and what
//! they were made of. It is written last, so that files without it, or other than it says, are of no finished survey; and it is what
//! the next survey under the same name knows the old files by.
//!
//! ```text
//! bed manifest 1
//! version 0.2.0
//! grid SHA-256 NAME
//! fixtures SHA-256 NAME                                      where there are some
//! plan SHA-256 NAME
//! mesh open 0 0 0                                            or closed -1 -1 -1: so many steps from a vertex to where it stands in the grid
//! metres 0.1 0.1 0.1 7 8 9                                   where the step is known: of a step, and of the files' own point 0,0,0
//! whole 0 0 0 96 64 32 xz                                    in the files' own coordinates, as the blocks are
//! file SHA-256 VERTICES TRIANGLES SIXFOLD 0 0 0 9 9 9 x NAME   for each block; SIXFOLD is the weight over z = 0, or refused-63
//! all FILES VERTICES TRIANGLES SIXFOLD
//! volume SIXFOLD                                             of the closed bed, or none
//! sum SHA-256                                                of all lines before it
//! ```

use crate::failure::Failure;
use crate::kept;
use crate::names::folder_of;
use crate::page::Weighed;
use crate::scale::Scale;
use crate::sha256::Digest;
use crate::words::{self, letters};
use bed::{Block, WeighError};
use std::collections::BTreeMap;
use std::ffi::{OsStr, OsString};
use std::fs;
use std::io;
use std::os::unix::ffi::{OsStrExt, OsStringExt};
use std::path::{Path, PathBuf};

const FIRST: &str = "bed manifest 1\n";

/// The most blocks of a plan: the library refuses more.
const BLOCKS: usize = 200;

/// BED.mesh becomes BED.001.mesh.
pub fn numbered(output: &Path, number: usize) -> PathBuf {
    let (mut name, after) = around(output);
    name.push(format!("{number:03}"));
    name.push(after);
    output.with_file_name(name)
}

/// What stands before and after the number of a block's file.
fn around(output: &Path) -> (OsString, OsString) {
    let mut before = output.file_stem().unwrap_or_default().to_os_string();
    before.push(".");
    let mut after = OsString::new();
    if let Some(extension) = output.extension() {
        after.push(".");
        after.push(extension);
    }
    (before, after)
}

/// BED.mesh becomes BED.manifest.
pub fn name(output: &Path) -> PathBuf {
    output.with_extension("manifest")
}

/// A file that a survey reads, and its digest.
pub struct Read<'a> {
    pub name: &'a Path,
    pub digest: Digest,
}

/// What a survey in blocks made.
pub struct Made<'a> {
    pub grid: Read<'a>,
    pub fixtures: Option<Read<'a>>,
    pub plan: Read<'a>,
    pub closed: bool,
    /// So many steps from a vertex of the files to where it stands in the grid.
    pub offset: [i64; 3],
    /// Of the grid.
    pub scale: Option<Scale>,
    pub whole: Block,
    pub blocks: Vec<MadeBlock<'a>>,
    /// Six times the volume, where there is one to go by.
    pub volume: Option<i128>,
}

pub struct MadeBlock<'a> {
    pub name: &'a Path,
    pub block: Block,
    pub weighed: &'a Weighed,
    pub digest: Digest,
}

impl Made<'_> {
    pub fn text(&self) -> Vec<u8> {
        let mut text = FIRST.as_bytes().to_vec();
        line(
            &mut text,
            &format!("version {}", env!("CARGO_PKG_VERSION")),
            None,
        );
        let read = [
            ("grid", Some(&self.grid)),
            ("fixtures", self.fixtures.as_ref()),
            ("plan", Some(&self.plan)),
        ];
        for (kind, read) in read {
            if let Some(read) = read {
                line(
                    &mut text,
                    &format!("{kind} {}", read.digest),
                    Some(read.name.as_os_str()),
                );
            }
        }
        let [x, y, z] = self.offset;
        let kind = if self.closed { "closed" } else { "open" };
        line(&mut text, &format!("mesh {kind} {x} {y} {z}"), None);
        if let Some(scale) = &self.scale {
            let own = scale.moved(self.offset);
            let numbers = own.step.iter().chain(&own.origin).map(f64::to_string);
            let numbers: Vec<_> = numbers.collect();
            line(&mut text, &format!("metres {}", numbers.join(" ")), None);
        }
        line(&mut text, &format!("whole {}", corners(&self.whole)), None);
        let (mut vertices, mut triangles, mut sum) = (0, 0, Ok(0));
        for made in &self.blocks {
            let weighed = made.weighed;
            let words = format!(
                "file {} {} {} {} {}",
                made.digest,
                weighed.vertices,
                weighed.triangles,
                sixfold(weighed.weight.map(|weight| weight.sum)),
                corners(&made.block)
            );
            line(&mut text, &words, made.name.file_name());
            vertices += weighed.vertices;
            triangles += weighed.triangles;
            sum = sum.and_then(|sum| weighed.weight.map(|more| sum + more.sum));
        }
        let files = self.blocks.len();
        line(
            &mut text,
            &format!("all {files} {vertices} {triangles} {}", sixfold(sum)),
            None,
        );
        let volume = self.volume.map(|sum| sum.to_string());
        let volume = volume.as_deref().unwrap_or("none");
        line(&mut text, &format!("volume {volume}"), None);
        let digest = Digest::of(&text);
        line(&mut text, &format!("sum {digest}"), None);
        text
    }
}

/// A line, with a name last, whose bytes stand as they are. A new line in it would end it: a name of such a file is never written
/// by a survey, see [`writable`].
fn line(text: &mut Vec<u8>, words: &str, name: Option<&OsStr>) {
    text.extend(words.bytes());
    if let Some(name) = name {
        text.push(b' ');
        text.extend(name.as_bytes().iter().map(|&byte| match byte {
            b'\n' => b'?',
            other => other,
        }));
    }
    text.push(b'\n');
}

fn corners(block: &Block) -> String {
    let numbers = block.min.iter().chain(&block.max).map(u32::to_string);
    let numbers: Vec<_> = numbers.collect();
    format!("{} {}", numbers.join(" "), letters(block.max_plane))
}

fn sixfold(sum: Result<i128, WeighError>) -> String {
    match sum {
        Ok(sum) => sum.to_string(),
        Err(refusal) => format!("refused-{}", refusal.number()),
    }
}

/// Whether a manifest can name the files of this output.
pub fn writable(output: &Path) -> bool {
    !output.as_os_str().as_bytes().contains(&b'\n')
}

/// The blocks' files of a survey, as its manifest names them.
pub struct Listed {
    /// Their digests.
    pub files: BTreeMap<OsString, Digest>,
    /// Whether their meshes together are those of a closed bed.
    pub closed: bool,
    /// Six times the volume that the survey told.
    pub volume: Option<i128>,
}

/// The manifest of the survey that a file of this name would be a block of, and what it lists; nothing where there is none that is whole.
pub fn beside(file: &Path) -> Option<(PathBuf, Listed)> {
    let stem = Path::new(file.file_stem()?);
    // BED.001.mesh, or BED.001 where the survey was given a name without a point
    let numbers = [stem.extension(), file.extension()];
    let stems = [stem.file_stem(), file.file_stem()];
    numbers.into_iter().zip(stems).find_map(|(number, stem)| {
        number.filter(|word| of_a_block(word.as_bytes()))?;
        let mut last = stem?.to_os_string();
        last.push(".manifest");
        let manifest = file.with_file_name(last);
        let listed = listed(&fs::read(&manifest).ok()?)?;
        Some((manifest, listed))
    })
}

/// What a manifest names, or nothing where it is no whole manifest.
fn listed(text: &[u8]) -> Option<Listed> {
    let rest = text.strip_prefix(FIRST.as_bytes())?;
    let end = text.len().checked_sub("sum \n".len() + 64)?;
    let sum = std::str::from_utf8(text.get(end..)?).ok()?;
    let sum = Digest::read(sum.strip_prefix("sum ")?.strip_suffix('\n')?)?;
    if Digest::of(&text[..end]) != sum {
        return None;
    }
    let mut files = BTreeMap::new();
    for line in rest.split(|&byte| byte == b'\n') {
        if let Some(line) = line.strip_prefix(b"file ") {
            let digest = Digest::read(std::str::from_utf8(line.get(..64)?).ok()?)?;
            // The digest, three numbers, seven words of the block, the name.
            let name = line.splitn(12, |&byte| byte == b' ').nth(11)?;
            files.insert(OsString::from_vec(name.to_vec()), digest);
        }
    }
    let mut lines = rest.split(|&byte| byte == b'\n');
    let closed = lines.clone().any(|line| line.starts_with(b"mesh closed "));
    let volume = lines.find_map(|line| line.strip_prefix(b"volume "));
    let volume = volume.and_then(|word| std::str::from_utf8(word).ok()?.parse().ok());
    Some(Listed {
        files,
        closed,
        volume,
    })
}

/// The files of an older survey under the same name, which go when the new one is there.
#[derive(Default)]
pub struct Older {
    pub removed: Vec<PathBuf>,
}

/// Looks for files of an older survey that this one would leave standing: with another number, or, for a survey in blocks, the
/// one without a number. Those that its manifest names, and that are still what it says, will be removed; any other is
/// refused, since nobody could tell it from the new ones.
pub fn older(output: &Path, names: &[PathBuf], in_blocks: bool) -> Result<Older, Failure> {
    let manifest = name(output);
    let found = match fs::read(&manifest) {
        Ok(text) => Some(listed(&text)),
        Err(error) if error.kind() == io::ErrorKind::NotFound => None,
        Err(error) => return Err(Failure::file(&manifest, error)),
    };
    if in_blocks && matches!(found, Some(None)) {
        return Err(Failure::file(
            &manifest,
            "is there and is no manifest of a survey; it would be written over",
        ));
    }
    let of_a_survey = matches!(found, Some(Some(_)));
    let listed = found.flatten().map(|listed| listed.files);
    let listed = listed.unwrap_or_default();
    let mut removed = Vec::new();
    for last in standing(output, in_blocks)? {
        let path = output.with_file_name(&last);
        if names.contains(&path) {
            continue;
        }
        let its_own = match listed.get(&last) {
            Some(digest) => kept::digest_of(&path)? == *digest,
            None => false,
        };
        if !its_own {
            return Err(Failure::file(
                &path,
                "would stand among the files of this survey and is of none that it replaces: move it away",
            ));
        }
        removed.push(path);
    }
    if of_a_survey && !in_blocks {
        removed.push(manifest);
    }
    Ok(Older { removed })
}

/// The names in the output's folder that are those of a survey's files: with a number, and, if asked, without.
fn standing(output: &Path, plain: bool) -> Result<Vec<OsString>, Failure> {
    let folder = folder_of(output);
    let (before, after) = around(output);
    let mut found = Vec::new();
    let Ok(entries) = fs::read_dir(folder) else {
        // That the folder is not there is said when the first file is written.
        return Ok(found);
    };
    for entry in entries {
        let last = entry
            .map_err(|error| Failure::file(folder, error))?
            .file_name();
        let number = last
            .as_bytes()
            .strip_prefix(before.as_bytes())
            .and_then(|rest| rest.strip_suffix(after.as_bytes()));
        let with_number = number.is_some_and(of_a_block);
        if with_number || plain && Some(last.as_os_str()) == output.file_name() {
            found.push(last);
        }
    }
    found.sort();
    Ok(found)
}

/// Whether this is the number of a block, as [`numbered`] writes it. Any other, a year for one, is in nobody's way.
fn of_a_block(word: &[u8]) -> bool {
    let number = std::str::from_utf8(word).ok().and_then(words::number);
    word.len() == 3 && number.is_some_and(|number: usize| (1..=BLOCKS).contains(&number))
}

#[cfg(test)]
mod tests {
    use super::*;

    fn made(blocks: Vec<MadeBlock>) -> Vec<u8> {
        let read = |name: &'static str| Read {
            name: Path::new(name),
            digest: Digest::of(name.as_bytes()),
        };
        Made {
            grid: read("a grid.npy"),
            fixtures: None,
            plan: read("plan"),
            closed: true,
            offset: [-1, 4, -1],
            scale: Some(Scale {
                step: [0.5, 0.25, 2.0],
                origin: [7.0, 8.0, 9.0],
            }),
            whole: Block::default(),
            blocks,
            volume: Some(-12),
        }
        .text()
    }

    #[test]
    fn what_was_written_is_read() {
        let weighed = Weighed {
            vertices: 8,
            triangles: 6,
            weight: Err(WeighError::Outside),
        };
        let name = Path::new("some/a bed.001.mesh");
        let block = || MadeBlock {
            name,
            block: Block::default(),
            weighed: &weighed,
            digest: Digest::of(b"mesh"),
        };
        let text = made(vec![block()]);
        let Listed {
            files,
            closed,
            volume,
        } = listed(&text).unwrap();
        assert_eq!((files.len(), closed, volume), (1, true, Some(-12)));
        assert_eq!(files[OsStr::new("a bed.001.mesh")], Digest::of(b"mesh"));
        assert!(String::from_utf8_lossy(&text).contains("\nall 1 8 6 refused-63\n"));
        let words = String::from_utf8_lossy(&text);
        assert!(words.contains("\nmesh closed -1 4 -1\nmetres 0.5 0.25 2 6.5 9 7\nwhole "));
        assert!(words.contains("\nvolume -12\nsum "));
        assert_eq!(listed(&made(vec![])).unwrap().files.len(), 0);
        // Every shorter beginning, and every changed byte, is seen.
        for end in 0..text.len() {
            assert!(listed(&text[..end]).is_none(), "{end}");
            let mut other = text.clone();
            other[end] ^= 1;
            assert!(listed(&other).is_none(), "{end}");
        }
    }

    #[test]
    fn names() {
        let numbered = |name: &str, number| numbered(Path::new(name), number);
        assert_eq!(numbered("a/bed.mesh", 7), Path::new("a/bed.007.mesh"));
        assert_eq!(numbered("bed", 200), Path::new("bed.200"));
        assert_eq!(numbered("bed.2024.mesh", 1), Path::new("bed.2024.001.mesh"));
        assert_eq!(name(Path::new("a/bed.mesh")), Path::new("a/bed.manifest"));
    }
}
