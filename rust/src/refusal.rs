//! Why a call was refused, in words.

use crate::lent::Counts;
use std::fmt;

/// The answers 1 to 7, in the order in which they are tried. A refused call changes nothing.
#[derive(Clone, Copy, Debug, PartialEq, Eq)]
pub enum Refusal {
    /// 1: a dimension is 0 or above 16,777,217, or their product is above 1,073,741,824.
    Dimensions,
    /// 2: min is above max on an axis, or max is not below its dimension.
    Box,
    /// 3: the grid's length is not the product of the dimensions.
    GridLength,
    /// 4: the cell map is shorter than the grid.
    MapShort,
    /// 5: a distance in the box is not finite or above 2^124 in magnitude. Never of whole numbers.
    Distance,
    /// 6: positions, normals, cells, strides or crossings have no room for the vertices; the counts needed.
    VerticesShort(Counts),
    /// 7: indices have no room for the faces; the counts needed.
    IndicesShort(Counts),
}

impl Refusal {
    /// The answer number, 1 to 7.
    pub fn number(self) -> u32 {
        match self {
            Refusal::Dimensions => 1,
            Refusal::Box => 2,
            Refusal::GridLength => 3,
            Refusal::MapShort => 4,
            Refusal::Distance => 5,
            Refusal::VerticesShort(_) => 6,
            Refusal::IndicesShort(_) => 7,
        }
    }

    /// What an answer number and its counts say: done, or the refusal.
    pub(crate) fn of(answer: u32, counts: Counts) -> Result<Counts, Refusal> {
        match answer {
            0 => Ok(counts),
            1 => Err(Refusal::Dimensions),
            2 => Err(Refusal::Box),
            3 => Err(Refusal::GridLength),
            4 => Err(Refusal::MapShort),
            5 => Err(Refusal::Distance),
            6 => Err(Refusal::VerticesShort(counts)),
            7 => Err(Refusal::IndicesShort(counts)),
            _ => unreachable!("the library answers 0 to 7"),
        }
    }
}

impl fmt::Display for Refusal {
    fn fmt(&self, out: &mut fmt::Formatter) -> fmt::Result {
        match self {
            Refusal::Dimensions => out.write_str(
                "a dimension is 0 or above 16777217, or the product of the dimensions is above 1073741824",
            ),
            Refusal::Box => out.write_str(
                "the box does not fit: min is above max on an axis, or max is not below its dimension",
            ),
            Refusal::GridLength => {
                out.write_str("the grid's length is not the product of the dimensions")
            }
            Refusal::MapShort => out.write_str("the cell map is shorter than the grid"),
            Refusal::Distance => {
                out.write_str("a distance in the box is not finite or is above 2^124 in magnitude")
            }
            Refusal::VerticesShort(needed) => write!(
                out,
                "no room for {} vertices in positions, normals, cells, strides or crossings",
                needed.vertices
            ),
            Refusal::IndicesShort(needed) => {
                write!(out, "no room for {} indices", needed.indices)
            }
        }
    }
}

impl std::error::Error for Refusal {}
