//! Whether the mesh of a box has no hole, from the distances alone.

use crate::distance::Distance;
use crate::environment::DefaultEnvironment;
use crate::lent::Counts;
use crate::raw::BedBox;
use crate::refusal::Refusal;
use std::fmt;

/// Whether every distance below zero in the box from `min` to `max`, both included, lies from min + 1 to
/// max - 2 on each axis.
///
/// If so, each directed triangle side of the box's mesh, with any [`MaxPlane`](crate::MaxPlane), occurs
/// exactly as often as its reverse: the skin has no hole. A box without a distance below zero is enclosed too, and
/// its mesh is empty. A no does not say that there is a hole. Refused are [`Refusal::Dimensions`],
/// [`Refusal::Box`] and [`Refusal::GridLength`] alone. The grid may hold f32, i16 or i8; see [`Distance`].
///
/// A bed that touches floor or walls has negative points on the box's sides and is never enclosed. To close it,
/// mesh a copy of the grid with a border of positive points, one layer at min and two at max on each axis.
///
/// ```
/// let mut sdf = [1.0; 64];
/// sdf[21] = -1.0;
/// assert_eq!(bed::is_enclosed(&sdf, [4; 3], [0; 3], [3; 3]), Ok(true));
/// assert_eq!(bed::is_enclosed(&sdf, [4; 3], [0; 3], [2; 3]), Ok(false));
/// ```
pub fn is_enclosed<D: Distance>(
    sdf: &[D],
    dims: [u32; 3],
    min: [u32; 3],
    max: [u32; 3],
) -> Result<bool, Refusal> {
    let block = BedBox::with(dims, min, max);
    let mut enclosed = false;
    let _environment = DefaultEnvironment::enter();
    // SAFETY: the pointer and length come from a slice, which is aligned and never null, and `enclosed`
    // is a variable of its own.
    let answer = unsafe { D::IS_ENCLOSED(sdf.as_ptr(), sdf.len(), &block, &mut enclosed) };
    Refusal::of(answer, Counts::default()).map(|_| enclosed)
}

/// Why a layer was not tested: the answers 1, 2, 77 and 3, in the order in which they are tried.
#[derive(Clone, Copy, Debug, PartialEq, Eq)]
pub enum EnclosedRefusal {
    /// 1: a dimension is 0 or above 16,777,217, or their product is above 1,073,741,824.
    Dimensions,
    /// 2: min is above max on an axis, or max is not below its dimension.
    Box,
    /// 77: z is not from min z to max z.
    Height,
    /// 3: the layer's length is not X·Y.
    Length,
}

impl EnclosedRefusal {
    /// The answer number.
    pub fn number(self) -> u32 {
        match self {
            EnclosedRefusal::Dimensions => 1,
            EnclosedRefusal::Box => 2,
            EnclosedRefusal::Height => 77,
            EnclosedRefusal::Length => 3,
        }
    }

    fn of(answer: u32) -> Result<(), EnclosedRefusal> {
        match answer {
            0 => Ok(()),
            1 => Err(EnclosedRefusal::Dimensions),
            2 => Err(EnclosedRefusal::Box),
            77 => Err(EnclosedRefusal::Height),
            3 => Err(EnclosedRefusal::Length),
            _ => unreachable!("the library answers 0, 1, 2, 3 or 77"),
        }
    }
}

impl fmt::Display for EnclosedRefusal {
    fn fmt(&self, out: &mut fmt::Formatter) -> fmt::Result {
        out.write_str(match self {
            EnclosedRefusal::Dimensions => "a dimension is 0 or above 16777217, or the product of the dimensions is above 1073741824",
            EnclosedRefusal::Box => "the box does not fit: min is above max on an axis, or max is not below its dimension",
            EnclosedRefusal::Height => "the box has no such layer",
            EnclosedRefusal::Length => "the layer's length is not the product of the first two dimensions",
        })
    }
}

impl std::error::Error for EnclosedRefusal {}

/// [`is_enclosed`] of one layer of X·Y distances, the layer `z` of the box, for a grid that comes layer by layer. A grid that
/// [`is_enclosed`] does not refuse is enclosed exactly if each of its layers from min z to max z is.
///
/// ```
/// let mut layer = [1.0; 20]; // 5 by 4 points
/// layer[7] = -1.0; // x = 2, y = 1
/// assert_eq!(bed::is_enclosed_layer(&layer, [5, 4, 6], [0; 3], [4, 3, 5], 3), Ok(true));
/// assert_eq!(bed::is_enclosed_layer(&layer, [5, 4, 6], [0; 3], [4, 3, 5], 4), Ok(false));
/// ```
pub fn is_enclosed_layer<D: Distance>(
    layer: &[D],
    dims: [u32; 3],
    min: [u32; 3],
    max: [u32; 3],
    z: u32,
) -> Result<bool, EnclosedRefusal> {
    let mut enclosed = false;
    let _environment = DefaultEnvironment::enter();
    // SAFETY: as in `is_enclosed`; the box is a variable of its own.
    let answer = unsafe {
        D::IS_ENCLOSED_LAYER(
            layer.as_ptr(),
            layer.len(),
            &BedBox::with(dims, min, max),
            z,
            &mut enclosed,
        )
    };
    EnclosedRefusal::of(answer).map(|_| enclosed)
}

#[cfg(test)]
mod tests {
    use super::*;

    #[test]
    fn layers_make_up_the_whole() {
        let dims = [6, 5, 7];
        let (mut yes, mut no) = (0, 0);
        for place in 0..6 * 5 * 7 {
            let mut sdf = [3i16; 6 * 5 * 7];
            sdf[place] = -1;
            sdf[place * 13 % 210] = -32768;
            for (min, max) in [
                ([0; 3], [5, 4, 6]),
                ([1, 0, 2], [5, 3, 6]),
                ([0, 1, 0], [4, 4, 5]),
            ] {
                let layers = (min[2]..=max[2]).all(|z| {
                    let layer = &sdf[30 * z as usize..][..30];
                    let floats: Vec<f32> = layer.iter().map(|&d| f32::from(d)).collect();
                    let found = is_enclosed_layer(layer, dims, min, max, z);
                    assert_eq!(found, is_enclosed_layer(&floats, dims, min, max, z));
                    found.unwrap()
                });
                assert_eq!(Ok(layers), is_enclosed(&sdf, dims, min, max));
                *(if layers { &mut yes } else { &mut no }) += 1;
            }
        }
        assert!(yes > 20 && no > 20, "{yes} {no}");
    }

    #[test]
    fn refusals_in_their_order() {
        let number = |length: usize, dims, max, z| {
            is_enclosed_layer(&[1i8; 64][..length], dims, [1, 0, 2], max, z)
                .unwrap_err()
                .number()
        };
        assert_eq!(number(0, [5, 0, 6], [5, 3, 6], 1), 1);
        assert_eq!(number(0, [5, 4, 6], [4, 4, 5], 1), 2);
        assert_eq!(number(0, [5, 4, 7], [4, 3, 5], 1), 77);
        assert_eq!(number(0, [5, 4, 7], [4, 3, 5], 6), 77);
        assert_eq!(number(19, [5, 4, 7], [4, 3, 5], 2), 3);
        assert_eq!(number(21, [5, 4, 7], [4, 3, 5], 5), 3);
    }
}
