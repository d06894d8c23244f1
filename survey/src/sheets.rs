//! `bed volume`: what mesh files weigh. A sum over an open sheet is no volume and is never called one: the sides of the triangles are counted.

use crate::arguments::Arguments;
use crate::failure::Failure;
use crate::kept::digest_of;
use crate::manifest;
use crate::mesh::{self, Lists};
use crate::said::{Said, NO_VOLUME};
use crate::weighing::{self, in_grid_steps, shadow_in_grid_steps};
use bed::Weight;
use std::collections::HashMap;
use std::ffi::OsString;
use std::path::{Path, PathBuf};

pub fn volume(words: &[OsString]) -> Result<Said, Failure> {
    let arguments = Arguments::read_files("volume", words)?;
    let files = arguments.files();
    let sheets = files.iter().map(|name| Sheet::read(name));
    let sheets = sheets.collect::<Result<Vec<_>, _>>()?;
    let mut said = Said::from(String::new());
    for (name, sheet) in files.iter().zip(&sheets) {
        if files.len() > 1 {
            said.text += &format!("{}: ", name.display());
        }
        said.text += &sheet.in_words();
    }
    let volumes = sheets.iter().all(|sheet| sheet.kind == Kind::Closed);
    if files.len() == 1 {
        said.status = if volumes { 0 } else { NO_VOLUME };
        return Ok(said);
    }
    let weights = sheets.iter().map(|sheet| sheet.weight);
    let sum = weights.fold(weighing::NOTHING, |sum, one| Weight {
        sum: sum.sum + one.sum,
        shadow: sum.shadow.saturating_add(one.shadow),
    });
    let count = files.len();
    match of_one_survey(files, sum.sum)? {
        Blocks::Closed => {
            said.text += &format!(
                "all {count} blocks of one closed survey: {}",
                volume_in_words(sum.sum)
            )
        }
        Blocks::Open => {
            said.text += &format!(
                "all {count} blocks of one open survey: {}",
                over_its_shadow(&sum)
            );
            said.status = NO_VOLUME;
        }
        Blocks::Not(reason) => {
            let sum = over_its_shadow(&sum);
            said.text +=
                &format!("sum of {count} files, not the blocks of one survey ({reason}): {sum}");
            // Each of them is a volume of its own, and the sum is told as nothing.
            said.status = if volumes { 0 } else { NO_VOLUME };
        }
    }
    Ok(said)
}

/// What is known of the mesh of a file.
struct Sheet {
    kind: Kind,
    weight: Weight,
}

#[derive(Clone, Copy, Debug, PartialEq)]
enum Kind {
    /// Each directed side occurs as often as its reverse.
    Closed,
    /// Some side does not: so many.
    Open(u64),
    /// There is no triangle: an empty tank and a full one have such a mesh.
    Empty,
}

impl Sheet {
    fn read(name: &Path) -> Result<Self, Failure> {
        let mesh = mesh::read(name)?;
        let lists = mesh.lists();
        let weight = weighing::of(&lists)
            .map_err(|refusal| Failure::refused(name.display(), refusal.number(), refusal))?;
        Ok(Self {
            kind: kind(&lists),
            weight,
        })
    }

    fn in_words(&self) -> String {
        match self.kind {
            Kind::Closed => volume_in_words(self.weight.sum),
            Kind::Open(sides) => format!(
                "open sheet: no volume; {sides} sides without their reverse; {}",
                over_its_shadow(&self.weight)
            ),
            Kind::Empty => {
                "no triangle: no volume; an empty tank and a full one have such a mesh\n".into()
            }
        }
    }
}

fn volume_in_words(sum: i128) -> String {
    format!("sixfold {sum} volume {}\n", in_grid_steps(sum))
}

fn over_its_shadow(weight: &Weight) -> String {
    format!(
        "over its shadow {} cubed grid steps down to z = 0, the shadow {} squared\n",
        in_grid_steps(weight.sum),
        shadow_in_grid_steps(weight.shadow)
    )
}

/// Counts the directed sides.
fn kind(lists: &Lists) -> Kind {
    if lists.indices.is_empty() {
        return Kind::Empty;
    }
    let mut sides: HashMap<(u32, u32), i64> = HashMap::with_capacity(lists.indices.len() / 2);
    for triangle in lists.indices.chunks_exact(3) {
        for (from, to) in [(0, 1), (1, 2), (2, 0)] {
            let (from, to) = (triangle[from], triangle[to]);
            // A side from a vertex to itself is its own reverse.
            if from < to {
                *sides.entry((from, to)).or_default() += 1;
            } else if to < from {
                *sides.entry((to, from)).or_default() -= 1;
            }
        }
    }
    match sides.values().map(|surplus| surplus.unsigned_abs()).sum() {
        0 => Kind::Closed,
        sides => Kind::Open(sides),
    }
}

/// Whether files are all the blocks of one survey.
enum Blocks {
    Closed,
    Open,
    /// No, and why.
    Not(String),
}

/// By the manifest beside the first: it names these files and no other, each is what it says, and of a closed survey this sum is the volume that was told.
fn of_one_survey(files: &[PathBuf], sum: i128) -> Result<Blocks, Failure> {
    let no = |reason: &str| Ok(Blocks::Not(reason.into()));
    let Some((manifest, mut listed)) = files.first().and_then(|file| manifest::beside(file)) else {
        return no("no manifest names them");
    };
    let shown = manifest.display();
    for name in files {
        if name.parent() != manifest.parent() {
            return no("they do not stand beside one manifest");
        }
        let known = name.file_name().and_then(|last| listed.files.remove(last));
        let Some(digest) = known else {
            return no(&format!("{shown} does not name each of them once"));
        };
        if digest_of(name)? != digest {
            return no(&format!("{} is not what {shown} says", name.display()));
        }
    }
    if !listed.files.is_empty() {
        return no(&format!("{shown} names {} more", listed.files.len()));
    }
    match listed.closed {
        false => Ok(Blocks::Open),
        true if listed.volume == Some(sum) => Ok(Blocks::Closed),
        true => no(&format!("{shown} tells another volume, or none")),
    }
}

#[cfg(test)]
mod tests {
    use super::*;

    fn kind_of(indices: &[u32]) -> Kind {
        kind(&Lists {
            positions: &[],
            normals: &[],
            indices,
            crossings: None,
        })
    }

    #[test]
    fn sides() {
        let tetrahedron = [0, 2, 1, 0, 1, 3, 0, 3, 2, 1, 2, 3];
        assert_eq!(kind_of(&tetrahedron), Kind::Closed);
        assert_eq!(kind_of(&tetrahedron.repeat(2)), Kind::Closed);
        assert_eq!(kind_of(&tetrahedron[3..]), Kind::Open(3));
        assert_eq!(kind_of(&[0, 1, 2]), Kind::Open(3));
        assert_eq!(kind_of(&[0, 1, 2, 0, 1, 2]), Kind::Open(6));
        assert_eq!(kind_of(&[0, 1, 2, 0, 2, 1]), Kind::Closed);
        assert_eq!(kind_of(&[1, 1, 2]), Kind::Closed);
        assert_eq!(kind_of(&[]), Kind::Empty);
    }
}
