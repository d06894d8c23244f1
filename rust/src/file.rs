//! Mesh files over lent bytes: nothing is opened or allocated, and what is not written is kept.

use crate::environment::DefaultEnvironment;
use crate::raw::{bed_check_mesh, bed_read_mesh, bed_write_mesh, bed_write_record};
use std::fmt;

/// How many vertices and triangles a file held.
#[derive(Clone, Copy, Debug, Default, PartialEq, Eq)]
pub struct FileCounts {
    /// The number of vertices.
    pub vertices: u64,
    /// The number of triangles.
    pub triangles: u64,
}

/// Why a file was not read, or a mesh not written: the answers 21 to 30. A refused call changes nothing.
#[derive(Clone, Copy, Debug, PartialEq, Eq)]
pub enum FileRefusal {
    /// 21: the file ends before its closing record does: it was cut off, or is empty.
    Cut,
    /// 22: a record's eighth word is not the sum of the other seven.
    Sum,
    /// 23: a record is of no known kind, or a vertex comes after a triangle.
    Kind,
    /// 24: a word of a triangle or of the closing record that should be zero is not.
    Zero,
    /// 25: the closing record's counts are not those of the records before it.
    Counts,
    /// 26: an index is not below the number of vertices.
    Index,
    /// 27: a position or normal is infinite or not a number.
    NotFinite,
    /// 28: bytes follow the closing record.
    After,
    /// 29: what was lent is too short.
    Room,
    /// 30: a list is not in threes, normals are not as long as positions, or a count is above 32 bits.
    Lists,
}

impl FileRefusal {
    /// The answer number, 21 to 30.
    pub fn number(self) -> u32 {
        match self {
            FileRefusal::Cut => 21,
            FileRefusal::Sum => 22,
            FileRefusal::Kind => 23,
            FileRefusal::Zero => 24,
            FileRefusal::Counts => 25,
            FileRefusal::Index => 26,
            FileRefusal::NotFinite => 27,
            FileRefusal::After => 28,
            FileRefusal::Room => 29,
            FileRefusal::Lists => 30,
        }
    }

    /// What an answer number says: done, with this result, or the refusal.
    fn of<T>(answer: u32, result: T) -> Result<T, FileRefusal> {
        match answer {
            0 => Ok(result),
            21 => Err(FileRefusal::Cut),
            22 => Err(FileRefusal::Sum),
            23 => Err(FileRefusal::Kind),
            24 => Err(FileRefusal::Zero),
            25 => Err(FileRefusal::Counts),
            26 => Err(FileRefusal::Index),
            27 => Err(FileRefusal::NotFinite),
            28 => Err(FileRefusal::After),
            29 => Err(FileRefusal::Room),
            30 => Err(FileRefusal::Lists),
            _ => unreachable!("the library answers 0 or 21 to 30"),
        }
    }
}

impl fmt::Display for FileRefusal {
    fn fmt(&self, out: &mut fmt::Formatter) -> fmt::Result {
        out.write_str(match self {
            FileRefusal::Cut => "the file is cut off before the end of its closing record",
            FileRefusal::Sum => "a record's sum is wrong",
            FileRefusal::Kind => "a record is of no known kind, or a vertex comes after a triangle",
            FileRefusal::Zero => "a word that should be zero is not",
            FileRefusal::Counts => "the closing record's counts are not those of the file",
            FileRefusal::Index => "an index has no vertex",
            FileRefusal::NotFinite => "a position or normal is not finite",
            FileRefusal::After => "bytes follow the closing record",
            FileRefusal::Room => "the lent room is too short",
            FileRefusal::Lists => {
                "a list is not in threes, normals are not as long as positions, or a count is above 32 bits"
            }
        })
    }
}

impl std::error::Error for FileRefusal {}

/// The length in bytes of the file of a mesh: 32 for each vertex, each triangle and the closing record. Where that is above
/// `usize::MAX` it is `usize::MAX`, and never a smaller number: no slice is so long, so that no mesh is cut short.
///
/// ```
/// assert_eq!(bed::file_len(8, 6), 32 * 15);
/// assert_eq!(bed::file_len(usize::MAX, 1), usize::MAX);
/// assert_eq!(bed::file_len(usize::MAX / 32, 0), usize::MAX);
/// ```
pub fn file_len(vertices: usize, triangles: usize) -> usize {
    let records = vertices.saturating_add(triangles).saturating_add(1);
    records.saturating_mul(32)
}

/// Writes the file of a mesh over the start of the lent bytes and says how many it took, which is
/// [`file_len`]. The lists hold three numbers a vertex and a triangle.
///
/// The rest of the lent bytes is kept. A refused call changes nothing; it is for [`FileRefusal::Lists`],
/// [`FileRefusal::Index`], [`FileRefusal::NotFinite`] or [`FileRefusal::Room`], the first that holds.
pub fn write_mesh(
    positions: &[f32],
    normals: &[f32],
    indices: &[u32],
    file: &mut [u8],
) -> Result<u64, FileRefusal> {
    let mut bytes = 0;
    let _environment = DefaultEnvironment::enter();
    // SAFETY: every pointer and length come from a slice, which is aligned and never null; the lent
    // bytes are borrowed mutably, so that they overlap nothing.
    let answer = unsafe {
        bed_write_mesh(
            positions.as_ptr(),
            positions.len(),
            normals.as_ptr(),
            normals.len(),
            indices.as_ptr(),
            indices.len(),
            file.as_mut_ptr(),
            file.len(),
            &mut bytes,
        )
    };
    FileRefusal::of(answer, bytes)
}

/// Writes one record of a mesh file, seven words and their sum, over the 32 lent bytes from `at` on: for who
/// writes a file piece by piece. The words are written as they are, whatever they say.
///
/// The records of a mesh's vertices, of its triangles and the closing one, one after the other, are its file as
/// [`write_mesh`] writes it. All other bytes are kept. It is refused with [`FileRefusal::Room`] alone, where
/// the record would end past the lent bytes, and then changes nothing.
pub fn write_record(file: &mut [u8], at: u64, words: [u32; 7]) -> Result<(), FileRefusal> {
    let [kind, a, b, c, d, e, f] = words;
    // SAFETY: the pointer and the length come from a slice that is borrowed mutably. No float is worked with.
    let answer =
        unsafe { bed_write_record(file.as_mut_ptr(), file.len(), at, kind, a, b, c, d, e, f) };
    FileRefusal::of(answer, ())
}

/// Reads the mesh of a whole file into the starts of the lent lists, three numbers a vertex and a
/// triangle, with the bits that were written. Each index has its vertex and each float is finite.
///
/// The rest of the lists is kept. A refused call changes nothing.
pub fn read_mesh(
    file: &[u8],
    positions: &mut [f32],
    normals: &mut [f32],
    indices: &mut [u32],
) -> Result<FileCounts, FileRefusal> {
    let mut counts = FileCounts::default();
    let _environment = DefaultEnvironment::enter();
    // SAFETY: every pointer and length come from a slice, which is aligned and never null; the lent
    // lists are borrowed mutably apart from each other and from the file, so nothing overlaps.
    let answer = unsafe {
        bed_read_mesh(
            file.as_ptr(),
            file.len(),
            positions.as_mut_ptr(),
            positions.len(),
            normals.as_mut_ptr(),
            normals.len(),
            indices.as_mut_ptr(),
            indices.len(),
            &mut counts.vertices,
            &mut counts.triangles,
        )
    };
    FileRefusal::of(answer, counts)
}

/// Checks a whole file and counts its mesh, with nothing lent: what to lend to [`read_mesh`], three numbers a
/// vertex and a triangle. It is refused as [`read_mesh`] is, but never with [`FileRefusal::Room`].
pub fn check_mesh(file: &[u8]) -> Result<FileCounts, FileRefusal> {
    let _environment = DefaultEnvironment::enter();
    let mut counts = FileCounts::default();
    // SAFETY: the pointer and the length come from a slice; the counts are apart from it and from each other.
    let answer = unsafe {
        bed_check_mesh(
            file.as_ptr(),
            file.len(),
            &mut counts.vertices,
            &mut counts.triangles,
        )
    };
    FileRefusal::of(answer, counts)
}
