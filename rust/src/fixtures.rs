//! Fixtures cut out of a grid, or of one layer of it: the file and the numbers are lent, and nothing is opened or allocated.

use crate::distance::WholeDistance;
use crate::environment::DefaultEnvironment;
use crate::raw::{bed_cut_fixtures, bed_cut_fixtures_layer, BedBox};
use std::fmt;

/// Why fixtures were not cut out: the answers 1, 3, 51 to 56, 81 and 82. A refused call changes nothing.
#[derive(Clone, Copy, Debug, PartialEq, Eq)]
pub enum FixtureRefusal {
    /// 1: a dimension is 0 or above 16,777,217, or their product is above 1,073,741,824.
    Dimensions,
    /// 3: the grid's length is not the product of the dimensions, or a layer's not X·Y.
    GridLength,
    /// 51: a record is needed and the file has fewer than 32 bytes left: it was cut off, or is empty.
    Cut,
    /// 52: a record is of no known kind.
    Kind,
    /// 53: a record lies deeper than 8.
    Deep,
    /// 54: a group's count is 0, or a difference's is not 2, or a word that should be zero is not.
    Word,
    /// 55: a float of a box is not finite or is above 2^24 in magnitude.
    Float,
    /// 56: bytes follow the solid.
    After,
    /// 81, of a layer alone: z is not below the grid's height.
    Height,
    /// 82, of a layer of whole numbers alone: the room for the floats is shorter than the layer.
    Room,
}

impl FixtureRefusal {
    /// The answer number: 1, 3, 51 to 56, 81 or 82.
    pub fn number(self) -> u32 {
        match self {
            FixtureRefusal::Dimensions => 1,
            FixtureRefusal::GridLength => 3,
            FixtureRefusal::Cut => 51,
            FixtureRefusal::Kind => 52,
            FixtureRefusal::Deep => 53,
            FixtureRefusal::Word => 54,
            FixtureRefusal::Float => 55,
            FixtureRefusal::After => 56,
            FixtureRefusal::Height => 81,
            FixtureRefusal::Room => 82,
        }
    }

    /// What an answer number says: done, or the refusal.
    fn of(answer: u32) -> Result<(), FixtureRefusal> {
        match answer {
            0 => Ok(()),
            1 => Err(FixtureRefusal::Dimensions),
            3 => Err(FixtureRefusal::GridLength),
            51 => Err(FixtureRefusal::Cut),
            52 => Err(FixtureRefusal::Kind),
            53 => Err(FixtureRefusal::Deep),
            54 => Err(FixtureRefusal::Word),
            55 => Err(FixtureRefusal::Float),
            56 => Err(FixtureRefusal::After),
            81 => Err(FixtureRefusal::Height),
            82 => Err(FixtureRefusal::Room),
            _ => unreachable!("the library answers 0, 1, 3, 51 to 56, 81 or 82"),
        }
    }
}

impl fmt::Display for FixtureRefusal {
    fn fmt(&self, out: &mut fmt::Formatter) -> fmt::Result {
        out.write_str(match self {
            FixtureRefusal::Dimensions => {
                "a dimension is 0 or above 16777217, or the product of the dimensions is above 1073741824"
            }
            FixtureRefusal::GridLength => "the grid's length is not the product of the dimensions",
            FixtureRefusal::Cut => "the fixture file is cut off",
            FixtureRefusal::Kind => "a record is of no known kind",
            FixtureRefusal::Deep => "a record lies deeper than 8",
            FixtureRefusal::Word => "a count is wrong, or a word that should be zero is not",
            FixtureRefusal::Float => "a float is not finite or is above 2^24 in magnitude",
            FixtureRefusal::After => "bytes follow the solid",
            FixtureRefusal::Height => "the grid has no such layer",
            FixtureRefusal::Room => "the lent room is too short",
        })
    }
}

impl std::error::Error for FixtureRefusal {}

/// Cuts the solid of a fixture file out of a grid with the given dimensions, x innermost.
///
/// A point whose distance is below the negated value of the solid there takes that negated value; every
/// other point keeps its bits. The grid's length is exactly the product of the dimensions. A refused call
/// changes nothing, and a second call with the same file neither.
///
/// ```
/// // One box, low (1, 1, 1) and high (2, 2, 2), out of a bed that is full.
/// let words = [1, 1f32.to_bits(), 1f32.to_bits(), 1f32.to_bits(), 2f32.to_bits(), 2f32.to_bits(), 2f32.to_bits(), 0];
/// let file: Vec<u8> = words.iter().flat_map(|word: &u32| word.to_le_bytes()).collect();
/// let mut sdf = [-0.75; 64];
/// bed::cut_fixtures(&file, [4; 3], &mut sdf).unwrap();
/// assert_eq!((sdf[0], sdf[21], sdf[63]), (-0.75, 0.0, -0.75));
/// ```
pub fn cut_fixtures(file: &[u8], dims: [u32; 3], sdf: &mut [f32]) -> Result<(), FixtureRefusal> {
    let _environment = DefaultEnvironment::enter();
    // SAFETY: each pointer and length come from one slice, which is aligned and never null; the grid is
    // borrowed mutably, so that it does not overlap the file.
    let answer = unsafe {
        bed_cut_fixtures(
            file.as_ptr(),
            file.len(),
            &BedBox::of(dims),
            sdf.as_mut_ptr(),
            sdf.len(),
        )
    };
    FixtureRefusal::of(answer)
}

/// [`cut_fixtures`] of one layer, the grid's dims\[0\]·dims\[1\] distances at z, for a bed that comes one layer at a time. All layers, each
/// cut at its own z, one behind the other are what [`cut_fixtures`] makes of the grid.
pub fn cut_fixtures_layer(
    file: &[u8],
    dims: [u32; 3],
    z: u32,
    layer: &mut [f32],
) -> Result<(), FixtureRefusal> {
    let _environment = DefaultEnvironment::enter();
    // SAFETY: as in `cut_fixtures`, and the box is a variable of its own.
    let answer = unsafe {
        bed_cut_fixtures_layer(
            file.as_ptr(),
            file.len(),
            &BedBox::of(dims),
            z,
            layer.as_mut_ptr(),
            layer.len(),
        )
    };
    FixtureRefusal::of(answer)
}

/// [`cut_fixtures_layer`] of whole numbers, which are only read: on success the first dims\[0\]·dims\[1\] numbers of `out` are what it makes of
/// the floats of the same values, and the rest is kept. A refusal changes nothing.
///
/// ```
/// let words = [1, 1f32.to_bits(), 0, 0, 2f32.to_bits(), 0, 0, 0];
/// let file: Vec<u8> = words.iter().flat_map(|word: &u32| word.to_le_bytes()).collect();
/// let mut out = [9.0; 5];
/// bed::cut_fixtures_layer_into(&file, &[-7i16, -7, 7, -7], [4, 1, 1], 0, &mut out).unwrap();
/// assert_eq!(out, [-1.0, 0.0, 7.0, -1.0, 9.0]);
/// ```
pub fn cut_fixtures_layer_into<W: WholeDistance>(
    file: &[u8],
    layer: &[W],
    dims: [u32; 3],
    z: u32,
    out: &mut [f32],
) -> Result<(), FixtureRefusal> {
    let _environment = DefaultEnvironment::enter();
    // SAFETY: as in `cut_fixtures_layer`.
    let answer = unsafe {
        W::CUT_LAYER(
            file.as_ptr(),
            file.len(),
            layer.as_ptr(),
            layer.len(),
            &BedBox::of(dims),
            z,
            out.as_mut_ptr(),
            out.len(),
        )
    };
    FixtureRefusal::of(answer)
}
