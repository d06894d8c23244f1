//! Files that a power cut leaves as they were or whole and new: written beside their name, synced, and renamed. What is written
//! beside a name is known here, so that a signal that ends the command leaves nothing of it.

use crate::failure::Failure;
use crate::names::folder_of;
use crate::sha256::{Digest, Sha256};
use std::collections::BTreeSet;
use std::fs::{self, File};
use std::io::{self, Write};
use std::os::unix::fs::FileExt;
use std::path::{Path, PathBuf};
use std::process;
use std::sync::{Mutex, MutexGuard, PoisonError};

/// The files that stand beside their names. Who creates, renames or removes one holds it meanwhile.
static BEGUN: Mutex<BTreeSet<PathBuf>> = Mutex::new(BTreeSet::new());

type Begun = MutexGuard<'static, BTreeSet<PathBuf>>;

fn begun() -> Begun {
    BEGUN.lock().unwrap_or_else(PoisonError::into_inner)
}

/// Removes what stands beside its name. While what comes back is held, no file is created or renamed.
pub fn remove_begun() -> impl Sized {
    let begun = begun();
    for part in begun.iter() {
        let _ = fs::remove_file(part);
    }
    begun
}

/// A file that stands whole and synced beside its name. If it does not get that by [`rename`], it is removed.
pub struct Beside {
    part: PathBuf,
    name: PathBuf,
}

impl Beside {
    pub fn write(name: &Path, bytes: &[u8]) -> Result<Self, Failure> {
        let part = Part::create(name)?;
        part.write(bytes)?;
        part.synced()
    }

    /// The digest of what is there.
    pub fn digest(&self) -> Result<Digest, Failure> {
        digest_of(&self.part)
    }
}

/// The digest of a file.
pub fn digest_of(name: &Path) -> Result<Digest, Failure> {
    let file = File::open(name).map_err(|error| Failure::file(name, error))?;
    digest_at(&file).map_err(|error| Failure::file(name, error))
}

/// The digest of an open file, all of it.
pub fn digest_at(file: &File) -> io::Result<Digest> {
    let (mut hash, mut place) = (Sha256::default(), 0);
    let mut bytes = vec![0; 1 << 18];
    loop {
        match file.read_at(&mut bytes, place) {
            Ok(0) => return Ok(hash.digest()),
            Ok(count) => {
                hash.add(&bytes[..count]);
                place += count as u64;
            }
            Err(error) if error.kind() == io::ErrorKind::Interrupted => {}
            Err(error) => return Err(error),
        }
    }
}

/// A file beside its name that is written piece by piece. If it is not [`synced`](Part::synced), it is removed.
pub struct Part {
    file: File,
    beside: Beside,
}

impl Part {
    pub fn create(name: &Path) -> Result<Self, Failure> {
        let name = target(name)?;
        let (file, part) = part_of(&name).map_err(|error| Failure::file(&name, error))?;
        let beside = Beside { part, name };
        Ok(Self { file, beside })
    }

    fn fail(&self, error: io::Error) -> Failure {
        Failure::file(&self.beside.name, error)
    }

    /// Writes after what was written last.
    pub fn write(&self, bytes: &[u8]) -> Result<(), Failure> {
        let mut file = &self.file;
        file.write_all(bytes).map_err(|error| self.fail(error))
    }

    pub fn write_at(&self, place: u64, bytes: &[u8]) -> Result<(), Failure> {
        let written = self.file.write_all_at(bytes, place);
        written.map_err(|error| self.fail(error))
    }

    /// Whether these bytes were written at this place.
    pub fn holds(&self, place: u64, bytes: &[u8]) -> Result<bool, Failure> {
        let mut found = vec![0; bytes.len()];
        match self.file.read_exact_at(&mut found, place) {
            Ok(()) => Ok(found == bytes),
            Err(error) if error.kind() == io::ErrorKind::UnexpectedEof => Ok(false),
            Err(error) => Err(self.fail(error)),
        }
    }

    pub fn synced(self) -> Result<Beside, Failure> {
        self.file.sync_all().map_err(|error| self.fail(error))?;
        Ok(self.beside)
    }
}

impl Drop for Beside {
    fn drop(&mut self) {
        // After a rename it is not known any more, and there is nothing of that name.
        let mut begun = begun();
        if begun.remove(&self.part) {
            let _ = fs::remove_file(&self.part);
        }
    }
}

pub fn write(name: &Path, bytes: &[u8]) -> Result<(), Failure> {
    rename(vec![Beside::write(name, bytes)?])
}

/// Gives the files their names, one after the other, and then syncs their folders.
pub fn rename(files: Vec<Beside>) -> Result<(), Failure> {
    replace(files, &[], None)
}

/// Gives the files their names, then removes others, then gives the last one its name; and syncs the folders before the last one and
/// after it. A signal that comes meanwhile waits until it is done.
pub fn replace(
    files: Vec<Beside>,
    removed: &[PathBuf],
    last: Option<Beside>,
) -> Result<(), Failure> {
    let mut known = begun();
    let done = replaced(&files, removed, &mut known)
        .and_then(|()| replaced(last.as_slice(), &[], &mut known));
    // Those that were not renamed are removed as they go, which takes what is held here.
    drop(known);
    drop((files, last));
    done
}

fn replaced(files: &[Beside], removed: &[PathBuf], known: &mut Begun) -> Result<(), Failure> {
    let mut folders = BTreeSet::new();
    for file in files {
        fs::rename(&file.part, &file.name).map_err(|error| Failure::file(&file.name, error))?;
        known.remove(&file.part);
        folders.insert(folder_of(&file.name).to_path_buf());
    }
    for name in removed {
        fs::remove_file(name).map_err(|error| Failure::file(name, error))?;
        folders.insert(folder_of(name).to_path_buf());
    }
    for folder in folders {
        File::open(&folder)
            .and_then(|opened| opened.sync_all())
            .map_err(|error| Failure::file(&folder, error))?;
    }
    Ok(())
}

/// The file behind a link, so that the link stays. What is no file, a folder or a device, is not replaced.
fn target(name: &Path) -> Result<PathBuf, Failure> {
    match fs::metadata(name) {
        Ok(found) if !found.is_file() => Err(Failure::file(name, "is there and is no plain file")),
        Ok(_) => fs::canonicalize(name).map_err(|error| Failure::file(name, error)),
        Err(_) => Ok(name.to_path_buf()),
    }
}

/// A new file beside the name. One that a killed run left behind is not touched.
fn part_of(name: &Path) -> io::Result<(File, PathBuf)> {
    let mut known = begun();
    let mut number = 0;
    loop {
        let mut part = name.as_os_str().to_os_string();
        part.push(format!(".{}-{number}.part", process::id()));
        let part = PathBuf::from(part);
        match File::options()
            .read(true)
            .write(true)
            .create_new(true)
            .open(&part)
        {
            Ok(file) => {
                known.insert(part.clone());
                return Ok((file, part));
            }
            Err(error) if error.kind() == io::ErrorKind::AlreadyExists => number += 1,
            Err(error) => return Err(error),
        }
    }
}
