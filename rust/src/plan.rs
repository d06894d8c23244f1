//! Whether a list of blocks is a plan of a tank, and where it is none, an edge that shows it.

use crate::lent::MaxPlane;
use crate::raw::{bed_check_plan, bed_plan_witness, BedBox, BedWitness};
use std::fmt;

/// The box of a call, from `min` to `max`, with its max plane for each axis. C's `struct bed_block`: 28
/// bytes, aligned to 4.
#[repr(C)]
#[derive(Clone, Copy, Debug, Default, PartialEq, Eq)]
pub struct Block {
    /// The lowest corner.
    pub min: [u32; 3],
    /// The highest corner, which belongs to the box.
    pub max: [u32; 3],
    /// The max plane, for each axis.
    pub max_plane: MaxPlane,
}

/// Why a plan was not checked. The list is tried first.
#[derive(Clone, Copy, Debug, PartialEq, Eq)]
pub enum PlanError {
    /// 41: there are more than 200 blocks.
    List,
    /// 42: a box, the whole's or a block's, has min above max on an axis or a coordinate above 16,777,216.
    Box,
}

impl PlanError {
    /// The answer number, 41 or 42.
    pub fn number(self) -> u32 {
        match self {
            PlanError::List => 41,
            PlanError::Box => 42,
        }
    }
}

impl fmt::Display for PlanError {
    fn fmt(&self, out: &mut fmt::Formatter) -> fmt::Result {
        out.write_str(match self {
            PlanError::List => "the list has more than 200 blocks",
            PlanError::Box => "a box has min above max on an axis, or a coordinate above 16777216",
        })
    }
}

impl std::error::Error for PlanError {}

/// Whether every edge that the whole owns is owned by exactly one block and no block owns any other edge.
///
/// If so, and the whole and every block are accepted calls on one grid, the blocks' faces are the whole's
/// faces, each once. No edge is visited: the time is bounded by the number of blocks alone.
///
/// ```
/// use bed::{check_plan, Block, PlanError};
///
/// let whole = Block { max: [6, 4, 4], ..Block::default() };
/// let lower = Block { max: [4, 4, 4], ..Block::default() };
/// let upper = Block { min: [3, 0, 0], ..whole };
/// assert_eq!(check_plan(&[lower, upper], &whole), Ok(true));
/// assert_eq!(check_plan(&[lower], &whole), Ok(false));
/// assert_eq!(check_plan(&[lower; 201], &whole), Err(PlanError::List));
/// ```
pub fn check_plan(blocks: &[Block], whole: &Block) -> Result<bool, PlanError> {
    let mut holds = false;
    // SAFETY: the pointer and length come from a slice of `repr(C)` structs with the layout of bed_block,
    // whose flags are Rust's `bool`; it is aligned and never null, and `holds` is a variable of its own.
    let answer = unsafe {
        bed_check_plan(
            blocks.as_ptr(),
            blocks.len(),
            whole.min[0],
            whole.min[1],
            whole.min[2],
            whole.max[0],
            whole.max[1],
            whole.max[2],
            whole.max_plane.x,
            whole.max_plane.y,
            whole.max_plane.z,
            &mut holds,
        )
    };
    match answer {
        0 => Ok(holds),
        41 => Err(PlanError::List),
        42 => Err(PlanError::Box),
        _ => unreachable!("the library answers 0, 41 or 42"),
    }
}

/// An edge at which blocks are no plan: the whole owns it and no block or more than one does, or a block owns it and the whole does
/// not. If `first` is `None` no block owns it; if only `second` is, the block `first` does and the whole does not; else both do.
#[derive(Clone, Copy, Debug, PartialEq, Eq)]
pub struct Witness {
    /// 0, 1 or 2: the edge goes one step up along x, y or z ...
    pub axis: usize,
    /// ... from this point.
    pub at: [u32; 3],
    /// The first block of the list that owns it.
    pub first: Option<usize>,
    /// The second.
    pub second: Option<usize>,
}

/// Of the edges at which the blocks are no plan the first, x edges before y before z edges and then by the lowest z, y and x; `None`
/// exactly if [`check_plan`] says yes. It refuses what [`check_plan`] refuses.
///
/// ```
/// use bed::{plan_witness, Block, Witness};
///
/// let whole = Block { max: [6, 4, 4], ..Block::default() };
/// let lower = Block { max: [4, 4, 4], ..Block::default() };
/// let upper = Block { min: [3, 0, 0], ..whole };
/// assert_eq!(plan_witness(&[lower, upper], &whole), Ok(None));
/// let gap = Witness { axis: 0, at: [3, 1, 1], first: None, second: None };
/// assert_eq!(plan_witness(&[lower], &whole), Ok(Some(gap)));
/// let twice = Witness { axis: 0, at: [3, 1, 1], first: Some(1), second: Some(2) };
/// assert_eq!(plan_witness(&[lower, upper, upper], &whole), Ok(Some(twice)));
/// ```
pub fn plan_witness(blocks: &[Block], whole: &Block) -> Result<Option<Witness>, PlanError> {
    let words: Vec<BedBox> = blocks.iter().map(Block::in_words).collect();
    let mut told = BedWitness::default();
    // SAFETY: the pointer comes from a list of `repr(C)` structs of twelve words each, all of which the length counts; a list that is
    // in memory has fewer words than a length holds. `told` is a variable of its own.
    let answer = unsafe {
        bed_plan_witness(
            words.as_ptr().cast(),
            12 * words.len(),
            &whole.in_words(),
            &mut told,
        )
    };
    let number = |block: u32| (block != u32::MAX).then_some(block as usize);
    match answer {
        0 => Ok(Some(Witness {
            axis: told.axis as usize,
            at: told.at,
            first: number(told.first),
            second: number(told.second),
        })),
        41 => Err(PlanError::List),
        42 => Err(PlanError::Box),
        43 => Ok(None),
        _ => unreachable!("the library answers 0, 41, 42 or 43 for words in twelves"),
    }
}

impl Block {
    /// The twelve words, with dimensions that are not read.
    fn in_words(&self) -> BedBox {
        let MaxPlane { x, y, z } = self.max_plane;
        BedBox {
            max_plane: [x, y, z].map(u32::from),
            ..BedBox::with([0; 3], self.min, self.max)
        }
    }
}
