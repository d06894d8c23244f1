//! The cells of a box below and on the surface, counted from the distances alone: what bounds the volume of a closed bed.

use crate::distance::Distance;
use crate::environment::DefaultEnvironment;
use crate::lent::MaxPlane;
use crate::raw::BedBox;
use std::fmt;

pub use crate::raw::BedCounts as CellCounts;

/// Why nothing was counted: the answers 1, 2, 91, 3, 5 and 92, in the order in which they are tried.
#[derive(Clone, Copy, Debug, PartialEq, Eq)]
pub enum TallyRefusal {
    /// 1: a dimension is 0 or above 16,777,217, or their product is above 1,073,741,824.
    Dimensions,
    /// 2: min is above max on an axis, or max is not below its dimension.
    Box,
    /// 91, of a layer alone: z is not from min z to max z.
    Height,
    /// 3: the grid's length is not the product of the dimensions; or a layer's is not X·Y, or that of the layer below is not what its place wants.
    Length,
    /// 5: a distance in the box is not finite or above 2^124 in magnitude. Never of whole numbers.
    Distance,
    /// 92, of a layer above min z alone: a count so far is above 2^60, which no box has.
    Counts,
}

impl TallyRefusal {
    /// The answer number.
    pub fn number(self) -> u32 {
        match self {
            TallyRefusal::Dimensions => 1,
            TallyRefusal::Box => 2,
            TallyRefusal::Height => 91,
            TallyRefusal::Length => 3,
            TallyRefusal::Distance => 5,
            TallyRefusal::Counts => 92,
        }
    }

    fn of(answer: u32) -> Result<(), TallyRefusal> {
        match answer {
            0 => Ok(()),
            1 => Err(TallyRefusal::Dimensions),
            2 => Err(TallyRefusal::Box),
            91 => Err(TallyRefusal::Height),
            3 => Err(TallyRefusal::Length),
            5 => Err(TallyRefusal::Distance),
            92 => Err(TallyRefusal::Counts),
            _ => unreachable!("the library answers 0, 1, 2, 3, 5, 91 or 92"),
        }
    }
}

impl fmt::Display for TallyRefusal {
    fn fmt(&self, out: &mut fmt::Formatter) -> fmt::Result {
        out.write_str(match self {
            TallyRefusal::Dimensions => "a dimension is 0 or above 16777217, or the product of the dimensions is above 1073741824",
            TallyRefusal::Box => "the box does not fit: min is above max on an axis, or max is not below its dimension",
            TallyRefusal::Height => "the box has no such layer",
            TallyRefusal::Length => "the grid's length is not the product of the dimensions",
            TallyRefusal::Distance => "a distance in the box is not finite or is above 2^124 in magnitude",
            TallyRefusal::Counts => "a count so far is above 2^60",
        })
    }
}

impl std::error::Error for TallyRefusal {}

impl CellCounts {
    /// From where to where the six-fold sum over a closed bed's mesh lies, in cubed steps of 1/256: proved where the counts are those of [`tally`] on a grid, a box
    /// and a max plane of which [`is_enclosed`] says yes, and the sum is that of [`weigh`] or [`volume`] over their mesh. I is six times the faces there.
    ///
    /// [`is_enclosed`]: crate::is_enclosed
    /// [`weigh`]: crate::weigh
    /// [`volume`]: crate::volume
    pub fn bounds(&self) -> (i128, i128) {
        const SIXTH: i128 = 256 * 256 * 256;
        let [whole, vertices, indices] = [self.whole, self.vertices, self.indices].map(i128::from);
        let faces = indices / 6;
        (
            SIXTH * (6 * whole - faces),
            SIXTH * (6 * (whole + vertices) + faces),
        )
    }
}

/// Counts the cells of the box from `min` to `max` that lie wholly in the sludge, and V and I.
///
/// ```
/// use bed::{CellCounts, MaxPlane};
///
/// let mut sdf = [-1.0; 12]; // two cells side by side, one corner of the second not below zero
/// sdf[2] = 1.0;
/// let counts = bed::tally(&sdf, [3, 2, 2], [0; 3], [2, 1, 1], MaxPlane::NONE);
/// assert_eq!(counts, Ok(CellCounts { whole: 1, vertices: 1, indices: 0 }));
/// ```
pub fn tally<D: Distance>(
    sdf: &[D],
    dims: [u32; 3],
    min: [u32; 3],
    max: [u32; 3],
    max_plane: MaxPlane,
) -> Result<CellCounts, TallyRefusal> {
    let _environment = DefaultEnvironment::enter();
    let mut counts = CellCounts::default();
    // SAFETY: pointer and length come from a slice, which is aligned and never null; the box and the counts are variables of their own.
    let answer = unsafe {
        D::TALLY(
            sdf.as_ptr(),
            sdf.len(),
            &BedBox::new(dims, min, max, max_plane),
            &mut counts,
        )
    };
    TallyRefusal::of(answer).map(|()| counts)
}

/// The counts after one more layer of X·Y distances, for a bed that comes one layer at a time from min z up: `below` is the layer before it, none at min z,
/// and `so_far` what the layers so far counted, whatever stands there at min z. After the layer at max z they are what [`tally`] tells.
#[allow(clippy::too_many_arguments)]
pub fn tally_layer<D: Distance>(
    below: &[D],
    layer: &[D],
    dims: [u32; 3],
    min: [u32; 3],
    max: [u32; 3],
    max_plane: MaxPlane,
    z: u32,
    so_far: &mut CellCounts,
) -> Result<(), TallyRefusal> {
    let _environment = DefaultEnvironment::enter();
    // SAFETY: as in `tally`.
    let answer = unsafe {
        D::TALLY_LAYER(
            below.as_ptr(),
            below.len(),
            layer.as_ptr(),
            layer.len(),
            &BedBox::new(dims, min, max, max_plane),
            z,
            so_far,
        )
    };
    TallyRefusal::of(answer)
}

#[cfg(test)]
mod tests {
    use super::*;

    #[test]
    fn layers_make_up_the_whole() {
        let dims = [5, 4, 6];
        let sdf: Vec<f32> = (0..120).map(|n| (n * 17 % 23) as f32 - 19.5).collect();
        let (min, max) = ([1, 0, 1], [4, 3, 5]);
        let plane = MaxPlane {
            x: true,
            y: false,
            z: true,
        };
        let whole = tally(&sdf, dims, min, max, plane).unwrap();
        let told = crate::counts(&sdf, dims, min, max, plane).unwrap();
        assert_eq!(
            (whole.vertices, whole.indices),
            (told.vertices, told.indices)
        );
        assert_eq!((whole.whole, whole.vertices), (13, 23));
        let mut found = CellCounts {
            whole: u64::MAX,
            vertices: 7,
            indices: 9,
        };
        let mut below: &[f32] = &[];
        for z in 1..=5u32 {
            let layer = &sdf[20 * z as usize..][..20];
            tally_layer(below, layer, dims, min, max, plane, z, &mut found).unwrap();
            below = layer;
        }
        assert_eq!(found, whole);
    }

    #[test]
    fn refusals() {
        let none = MaxPlane::NONE;
        let number = |found: Result<CellCounts, TallyRefusal>| found.unwrap_err().number();
        assert_eq!(number(tally(&[1.0f32], [0; 3], [0; 3], [0; 3], none)), 1);
        assert_eq!(
            number(tally(&[1.0f32], [1; 3], [0; 3], [u32::MAX; 3], none)),
            2
        );
        assert_eq!(number(tally(&[1.0f32; 2], [1; 3], [0; 3], [0; 3], none)), 3);
        assert_eq!(number(tally(&[f32::NAN], [1; 3], [0; 3], [0; 3], none)), 5);
        let mut counts = CellCounts {
            whole: (1 << 60) + 1,
            ..CellCounts::default()
        };
        let kept = counts;
        let layer = |below: &[i8], z, counts: &mut CellCounts| {
            tally_layer(below, &[1i8], [1, 1, 2], [0; 3], [0, 0, 1], none, z, counts)
        };
        assert_eq!(layer(&[1], 2, &mut counts), Err(TallyRefusal::Height));
        assert_eq!(layer(&[], 1, &mut counts), Err(TallyRefusal::Length));
        assert_eq!(layer(&[1], 1, &mut counts), Err(TallyRefusal::Counts));
        assert_eq!(counts, kept);
        assert_eq!(layer(&[], 0, &mut counts), Ok(()));
        assert_eq!(counts, CellCounts::default());
    }
}
