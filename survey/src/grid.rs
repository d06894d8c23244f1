//! Grids of distances from files: NumPy's, or raw numbers with the dimensions given. A grid is read as a whole, or stays in
//! its file and is read a layer at a time.
//!
//! Whether the dimensions and the number of distances fit is answer 1 or 3, and not asked here.

use crate::distances::{add_floats, Distances};
use crate::failure::Failure;
use crate::kept::digest_at;
use crate::npy;
use crate::numbers::Header;
use crate::sha256::{Digest, Sha256};
use std::fs::File;
use std::io::{self, BufReader, Read};
use std::os::unix::fs::FileExt;
use std::path::{Path, PathBuf};

/// A grid in memory, x innermost.
pub struct Grid {
    /// As the file has it.
    pub header: Header,
    pub distances: Distances,
    /// Of the file that it was read from, where that was asked.
    pub digest: Option<Digest>,
}

/// An open file at its first number, with what is known of it.
pub struct Source {
    pub header: Header,
    path: PathBuf,
    file: BufReader<Counted>,
}

/// A file whose bytes are counted, and hashed where that is asked, as they are read.
struct Counted {
    file: File,
    read: u64,
    hash: Option<Sha256>,
}

impl Read for Counted {
    fn read(&mut self, bytes: &mut [u8]) -> io::Result<usize> {
        let count = self.file.read(bytes)?;
        self.read += count as u64;
        if let Some(hash) = &mut self.hash {
            hash.add(&bytes[..count]);
        }
        Ok(count)
    }
}

/// Opens a grid; `raw` is the header of a file that has none of its own.
pub fn open(path: &Path, raw: Option<Header>, hashed: bool) -> Result<Source, Failure> {
    let fail = |reason: String| Failure::file(path, reason);
    let file = File::open(path).map_err(|error| fail(error.to_string()))?;
    let hash = hashed.then(Sha256::default);
    let mut file = BufReader::new(Counted {
        file,
        read: 0,
        hash,
    });
    let header = match raw {
        Some(header) => header,
        None => npy::read_header(&mut file).map_err(fail)?,
    };
    Ok(Source {
        header,
        path: path.to_path_buf(),
        file,
    })
}

const HALF_A_NUMBER: &str = "ends inside a number";
pub const ONCE: &str =
    "is no plain file and cannot be read twice, as a grid larger than --memory is";
/// Bytes that are read at a time: whole numbers of each kind.
const AT_A_TIME: usize = 1 << 18;

impl Source {
    /// Where the next byte stands in the file.
    fn place(&self) -> u64 {
        self.file.get_ref().read - self.file.buffer().len() as u64
    }

    /// How many numbers the file holds: of a plain file, from its length; of another it is what the header says.
    pub fn count(&self) -> u128 {
        match self.file.get_ref().file.metadata() {
            Ok(found) if found.is_file() => {
                let bytes = found.len().saturating_sub(self.place());
                u128::from(bytes) / self.header.numbers.bytes() as u128
            }
            _ => self.header.points(),
        }
    }

    /// The grid in memory; as floats, where that is asked.
    pub fn whole(mut self, floats: bool) -> Result<Grid, Failure> {
        let numbers = self.header.numbers;
        // A header may say more than there is: the file's own length goes before it.
        let count = usize::try_from(self.count()).unwrap_or(0);
        let mut distances = Distances::empty(numbers, floats, count);
        let mut bytes = Vec::with_capacity(AT_A_TIME);
        loop {
            bytes.clear();
            (&mut self.file)
                .take(AT_A_TIME as u64)
                .read_to_end(&mut bytes)
                .map_err(|error| Failure::file(&self.path, error))?;
            if bytes.is_empty() {
                break;
            }
            if bytes.len() % numbers.bytes() != 0 {
                return Err(Failure::file(&self.path, HALF_A_NUMBER));
            }
            distances.add(&bytes, numbers);
        }
        Ok(Grid {
            header: self.header,
            distances,
            digest: self.file.into_inner().hash.map(Sha256::digest),
        })
    }

    /// The grid in its file, which is read more than once.
    pub fn stored(self) -> Result<Stored, Failure> {
        let start = self.place();
        let path = self.path;
        let fail = |reason: &str| Failure::file(&path, reason);
        let file = self.file.into_inner().file;
        let found = file.metadata().map_err(|error| fail(&error.to_string()))?;
        if !found.is_file() {
            return Err(fail(ONCE));
        }
        let bytes = found.len().saturating_sub(start);
        let each = self.header.numbers.bytes() as u64;
        if bytes % each != 0 {
            return Err(fail(HALF_A_NUMBER));
        }
        Ok(Stored {
            header: self.header,
            length: bytes / each,
            path,
            file,
            start,
        })
    }
}

/// A grid that stays in its file.
pub struct Stored {
    pub header: Header,
    /// How many numbers the file held when it was opened.
    pub length: u64,
    pub path: PathBuf,
    file: File,
    start: u64,
}

/// One layer of a grid.
#[derive(Default)]
pub struct Layer {
    pub distances: Vec<f32>,
    bytes: Vec<u8>,
}

impl Stored {
    /// Reads the layer at z, which is one of the grid's.
    pub fn read_layer(&self, z: u32, layer: &mut Layer) -> Result<(), Failure> {
        let Header { dims, numbers } = self.header;
        let bytes = u64::from(dims[0]) * u64::from(dims[1]) * numbers.bytes() as u64;
        layer.bytes.resize(bytes as usize, 0);
        self.file
            .read_exact_at(&mut layer.bytes, self.start + u64::from(z) * bytes)
            .map_err(|error| match error.kind() {
                io::ErrorKind::UnexpectedEof => self.changed(),
                _ => Failure::file(&self.path, error),
            })?;
        layer.distances.clear();
        add_floats(&layer.bytes, numbers, &mut layer.distances);
        Ok(())
    }

    pub fn changed(&self) -> Failure {
        Failure::file(&self.path, "changed while it was read; nothing is written")
    }

    /// The digest of the file as it is now.
    pub fn digest(&self) -> Result<Digest, Failure> {
        digest_at(&self.file).map_err(|error| Failure::file(&self.path, error))
    }
}
