//! Names of files, by what they stand for: a file that is written must be none that is read and no other that is written, however
//! the two are spelled.

use std::collections::BTreeMap;
use std::fs;
use std::os::unix::fs::MetadataExt;
use std::path::{Path, PathBuf};

/// What a name stands for.
#[derive(PartialEq, Eq, PartialOrd, Ord)]
enum Meant {
    /// A file that is there, through links and by any of its names.
    There { device: u64, inode: u64 },
    /// One that is not there yet: the folder that it will stand in, with no link in its name, and its name there.
    NotYet(PathBuf),
}

impl Meant {
    fn by(name: &Path) -> Self {
        if let Ok(found) = fs::metadata(name) {
            return Meant::There {
                device: found.dev(),
                inode: found.ino(),
            };
        }
        let folder = fs::canonicalize(folder_of(name));
        match (folder, name.file_name()) {
            (Ok(folder), Some(last)) => Meant::NotYet(folder.join(last)),
            _ => Meant::NotYet(name.to_path_buf()),
        }
    }
}

/// The folder that a file of this name stands in.
pub fn folder_of(name: &Path) -> &Path {
    match name.parent() {
        Some(folder) if !folder.as_os_str().is_empty() => folder,
        _ => Path::new("."),
    }
}

/// Whether each name that will be written, or removed, is apart from those that are read and from all others; else what is wrong.
pub fn apart<'a>(
    read: impl IntoIterator<Item = &'a Path>,
    written: impl IntoIterator<Item = &'a Path>,
) -> Result<(), String> {
    let read: BTreeMap<_, _> = read
        .into_iter()
        .map(|name| (Meant::by(name), name))
        .collect();
    let mut seen: BTreeMap<Meant, &Path> = BTreeMap::new();
    for name in written {
        let meant = Meant::by(name);
        if let Some(input) = read.get(&meant) {
            let words = match *input == name {
                true => format!("{} would be written over", name.display()),
                false => format!(
                    "{} would be written over: it is {}",
                    input.display(),
                    name.display()
                ),
            };
            return Err(words);
        }
        if let Some(other) = seen.insert(meant, name) {
            let (one, two) = (other.display(), name.display());
            return Err(format!(
                "{one} and {two} are one file, and both would be written"
            ));
        }
    }
    Ok(())
}
