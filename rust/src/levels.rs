//! The level of the bed in each column of a box.

use crate::distance::Distance;
use crate::environment::DefaultEnvironment;
use crate::raw::BedBox;
use std::fmt;

/// Why no levels were told: the answers 1, 2, 77, 3, 5 and 78, in the order in which they are tried.
#[derive(Clone, Copy, Debug, PartialEq, Eq)]
pub enum LevelRefusal {
    /// 1: a dimension is 0 or above 16,777,217, or their product is above 1,073,741,824.
    Dimensions,
    /// 2: min is above max on an axis, or max is not below its dimension.
    Box,
    /// 77, of a layer alone: z is not from min z to max z.
    Height,
    /// 3: the grid's length is not the product of the dimensions; or a layer's is not X·Y, or that of the layer below is not what its place wants.
    Length,
    /// 5: a distance in the box is not finite or above 2^124 in magnitude. Never of whole numbers.
    Distance,
    /// 78: the lent room is shorter than the columns.
    Room,
}

impl LevelRefusal {
    /// The answer number.
    pub fn number(self) -> u32 {
        match self {
            LevelRefusal::Dimensions => 1,
            LevelRefusal::Box => 2,
            LevelRefusal::Height => 77,
            LevelRefusal::Length => 3,
            LevelRefusal::Distance => 5,
            LevelRefusal::Room => 78,
        }
    }

    fn of(answer: u32) -> Result<(), LevelRefusal> {
        match answer {
            0 => Ok(()),
            1 => Err(LevelRefusal::Dimensions),
            2 => Err(LevelRefusal::Box),
            77 => Err(LevelRefusal::Height),
            3 => Err(LevelRefusal::Length),
            5 => Err(LevelRefusal::Distance),
            78 => Err(LevelRefusal::Room),
            _ => unreachable!("the library answers 0, 1, 2, 3, 5, 77 or 78"),
        }
    }
}

impl fmt::Display for LevelRefusal {
    fn fmt(&self, out: &mut fmt::Formatter) -> fmt::Result {
        out.write_str(match self {
            LevelRefusal::Dimensions => "a dimension is 0 or above 16777217, or the product of the dimensions is above 1073741824",
            LevelRefusal::Box => "the box does not fit: min is above max on an axis, or max is not below its dimension",
            LevelRefusal::Height => "the box has no such layer",
            LevelRefusal::Length => "the grid's length is not the product of the dimensions",
            LevelRefusal::Distance => "a distance in the box is not finite or is above 2^124 in magnitude",
            LevelRefusal::Room => "the lent room is too short",
        })
    }
}

impl std::error::Error for LevelRefusal {}

/// The level of each column of the box from `min` to `max`, x innermost, in grid steps from z = 0: -1.0 where no point of the column is below zero; max z where
/// the point there is; and else where the line from the highest point below zero to the one above it crosses zero.
///
/// ```
/// let sdf = [-1.0f32, 1.0, 1.0, 3.0, 2.0, 4.0]; // two columns of three points
/// assert_eq!(bed::levels(&sdf, [2, 1, 3], [0; 3], [1, 0, 2]), Ok(vec![0.5, -1.0]));
/// ```
pub fn levels<D: Distance>(
    sdf: &[D],
    dims: [u32; 3],
    min: [u32; 3],
    max: [u32; 3],
) -> Result<Vec<f32>, LevelRefusal> {
    // Where the box is bad the library refuses before it looks at the room.
    let across = |axis: usize| u64::from(max[axis].saturating_sub(min[axis])) + 1;
    let columns = across(0)
        .checked_mul(across(1))
        .filter(|&columns| columns <= 1 << 30);
    let mut levels = vec![0.0; columns.unwrap_or(0) as usize];
    levels_lent(sdf, dims, min, max, &mut levels)?;
    Ok(levels)
}

/// [`levels`] into room that is lent; what stands past the columns is kept, and a refusal changes nothing.
pub fn levels_lent<D: Distance>(
    sdf: &[D],
    dims: [u32; 3],
    min: [u32; 3],
    max: [u32; 3],
    levels: &mut [f32],
) -> Result<(), LevelRefusal> {
    let _environment = DefaultEnvironment::enter();
    // SAFETY: pointers and lengths come from slices, which are aligned and never null, and the box is a variable of its own.
    let answer = unsafe {
        D::LEVELS(
            sdf.as_ptr(),
            sdf.len(),
            &BedBox::with(dims, min, max),
            levels.as_mut_ptr(),
            levels.len(),
        )
    };
    LevelRefusal::of(answer)
}

/// The levels after one more layer of X·Y distances, for a bed that comes one layer at a time from min z up: `below` is the layer before it, none at min z,
/// and `levels` what the layers so far made. After the layer at max z they are what [`levels`] tells.
pub fn levels_layer<D: Distance>(
    below: &[D],
    layer: &[D],
    dims: [u32; 3],
    min: [u32; 3],
    max: [u32; 3],
    z: u32,
    levels: &mut [f32],
) -> Result<(), LevelRefusal> {
    let _environment = DefaultEnvironment::enter();
    // SAFETY: as in `levels_lent`.
    let answer = unsafe {
        D::LEVELS_LAYER(
            below.as_ptr(),
            below.len(),
            layer.as_ptr(),
            layer.len(),
            &BedBox::with(dims, min, max),
            z,
            levels.as_mut_ptr(),
            levels.len(),
        )
    };
    LevelRefusal::of(answer)
}

#[cfg(test)]
mod tests {
    use super::*;

    #[test]
    fn layers_make_up_the_whole() {
        let dims = [4, 3, 5];
        let sdf: Vec<f32> = (0..60).map(|n| (n * 17 % 23) as f32 - 9.5).collect();
        let (min, max) = ([1, 0, 1], [3, 1, 4]);
        let whole = levels(&sdf, dims, min, max).unwrap();
        let mut found = [7.0; 7];
        let mut below: &[f32] = &[];
        for z in 1..=4u32 {
            let layer = &sdf[12 * z as usize..][..12];
            levels_layer(below, layer, dims, min, max, z, &mut found).unwrap();
            below = layer;
        }
        assert_eq!(found[..6], whole);
        assert_eq!(found[6], 7.0);
        for (number, &level) in whole.iter().enumerate() {
            let at = |z: usize| sdf[1 + number % 3 + 4 * (number / 3) + 12 * z];
            let highest = (1..=4).rev().find(|&z| at(z) < 0.0);
            let wanted = match highest {
                None => -1.0,
                Some(4) => 4.0,
                Some(z) => z as f32 + at(z) / (at(z) - at(z + 1)),
            };
            assert_eq!(level, wanted);
        }
    }

    #[test]
    fn refusals() {
        let number = |found: Result<Vec<f32>, LevelRefusal>| found.unwrap_err().number();
        assert_eq!(number(levels(&[1.0f32], [0; 3], [0; 3], [0; 3])), 1);
        assert_eq!(number(levels(&[1.0f32], [1; 3], [0; 3], [u32::MAX; 3])), 2);
        assert_eq!(number(levels(&[1.0f32; 2], [1; 3], [0; 3], [0; 3])), 3);
        assert_eq!(number(levels(&[f32::NAN], [1; 3], [0; 3], [0; 3])), 5);
        assert_eq!(
            levels_lent(&[1i8], [1; 3], [0; 3], [0; 3], &mut []),
            Err(LevelRefusal::Room)
        );
        let mut room = [0.0];
        assert_eq!(
            levels_layer(&[], &[1i8], [1; 3], [0; 3], [0; 3], 1, &mut room),
            Err(LevelRefusal::Height)
        );
    }
}
