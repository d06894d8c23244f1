//! A mesh of any size weighed: the volume between its triangles and the plane z = 0, and its area seen from above.

use crate::environment::DefaultEnvironment;
use crate::raw::bed_weigh;
use std::fmt;

/// Why a mesh was not weighed: the answers 61, 63, 64, 75 and 76, in the order in which they are tried.
#[derive(Clone, Copy, Debug, PartialEq, Eq)]
pub enum WeighError {
    /// 61: positions or indices are not in threes.
    Threes,
    /// 63: a coordinate, of any vertex lent, is not finite or not from 0 to 16,777,216.
    Outside,
    /// 64: an index is below the first vertex lent, or past the last.
    NoVertex,
    /// 75: there are more than 2^33 triangles.
    TooMany,
    /// 76: a triangle's second or third corner is more than 512 steps from its first in x or in y.
    Wide,
}

impl WeighError {
    /// The answer number.
    pub fn number(self) -> u32 {
        match self {
            WeighError::Threes => 61,
            WeighError::Outside => 63,
            WeighError::NoVertex => 64,
            WeighError::TooMany => 75,
            WeighError::Wide => 76,
        }
    }
}

impl fmt::Display for WeighError {
    fn fmt(&self, out: &mut fmt::Formatter) -> fmt::Result {
        out.write_str(match self {
            WeighError::Threes => "positions or indices are not in threes",
            WeighError::Outside => "a coordinate is not finite or not from 0 to 16777216",
            WeighError::NoVertex => "an index is not that of a vertex lent",
            WeighError::TooMany => "there are more than 2^33 triangles",
            WeighError::Wide => "a triangle is wider than two grid steps",
        })
    }
}

impl std::error::Error for WeighError {}

/// What a mesh weighs.
#[derive(Clone, Copy, Debug, PartialEq, Eq)]
pub struct Weight {
    /// Six times the volume between the triangles and the plane z = 0, in cubed steps of 1/256.
    pub sum: i128,
    /// Twice the area seen from above, in squared steps.
    pub shadow: i64,
}

/// Weighs a mesh of any size: each coordinate is rounded down to a step of 1/256, exactly, and over the
/// triangles a, b, c are summed (az + bz + cz) · ((bx - ax)(cy - ay) - (by - ay)(cx - ax)), and the second
/// factor alone.
///
/// `first` is the number of the first vertex lent: 0 for a whole mesh. With another number the triangles of one
/// layer are weighed from the positions of its vertices and of those of the layer below. Where each directed
/// side occurs as often as its reverse ([`is_enclosed`](crate::is_enclosed)) the sum is that of
/// [`volume`](crate::volume). Divide it by 6·256³ for cubed grid steps.
///
/// ```
/// let corners = [0.0, 0.0, 0.0, 1.0, 0.0, 0.0, 0.0, 1.0, 0.0, 0.0, 0.0, 1.0];
/// let triangles = [0, 2, 1, 0, 1, 3, 0, 3, 2, 1, 2, 3];
/// let weight = bed::weigh(&corners, 0, &triangles).unwrap();
/// assert_eq!((weight.sum, weight.shadow), (256 * 256 * 256, 0));
/// assert_eq!(bed::weigh(&corners, 7, &[7, 8, 6]), Err(bed::WeighError::NoVertex));
/// ```
pub fn weigh(positions: &[f32], first: u32, indices: &[u32]) -> Result<Weight, WeighError> {
    let _environment = DefaultEnvironment::enter();
    let (mut low, mut high, mut shadow) = (0, 0, 0);
    // SAFETY: the pointers and lengths come from slices, which are aligned and never null, and the last three
    // are variables of their own.
    let answer = unsafe {
        bed_weigh(
            positions.as_ptr(),
            positions.len(),
            first,
            indices.as_ptr(),
            indices.len(),
            &mut low,
            &mut high,
            &mut shadow,
        )
    };
    match answer {
        0 => Ok(Weight {
            sum: (i128::from(high) << 64) + i128::from(low),
            shadow,
        }),
        61 => Err(WeighError::Threes),
        63 => Err(WeighError::Outside),
        64 => Err(WeighError::NoVertex),
        75 => Err(WeighError::TooMany),
        76 => Err(WeighError::Wide),
        _ => unreachable!("the library answers 0, 61, 63, 64, 75 or 76"),
    }
}

#[cfg(test)]
mod tests {
    use super::*;

    /// In steps (384, 576, 960), (640, 704, 1280), (448, 1024, 128).
    const ONE: [f32; 9] = [1.5, 2.25, 3.75, 2.5, 2.75, 5.0, 1.75, 4.0, 0.5];

    #[test]
    fn one_triangle() {
        let weight = Weight {
            sum: 252_182_528,
            shadow: 106_496,
        };
        assert_eq!(weigh(&ONE, 0, &[0, 1, 2]), Ok(weight));
        assert_eq!(weigh(&ONE, 7, &[7, 8, 9]), Ok(weight));
    }

    #[test]
    fn below_zero() {
        let weight = Weight {
            sum: -252_182_528,
            shadow: -106_496,
        };
        assert_eq!(weigh(&ONE, 0, &[0, 2, 1]), Ok(weight));
    }

    #[test]
    fn more_than_64_bits() {
        // 0 and 2^24 in z, 512 steps in x and y: 2^33 · 2^18 a triangle, 2^14 of them
        let high = [
            0.0,
            0.0,
            16_777_216.0,
            2.0,
            0.0,
            16_777_216.0,
            0.0,
            2.0,
            0.0,
        ];
        let weight = weigh(&high, 0, &[0, 1, 2].repeat(1 << 14)).unwrap();
        assert_eq!((weight.sum, weight.shadow), (1 << 65, 1 << 32));
        let turned = weigh(&high, 0, &[0, 2, 1].repeat(1 << 14)).unwrap();
        assert_eq!((turned.sum, turned.shadow), (-(1 << 65), -(1 << 32)));
    }

    #[test]
    fn refusals() {
        assert_eq!(weigh(&ONE[1..], 0, &[0, 1, 9]), Err(WeighError::Threes));
        assert_eq!(
            weigh(&[-1.0, 0.0, 0.0], 0, &[9, 9, 9]),
            Err(WeighError::Outside)
        );
        assert_eq!(weigh(&ONE, 1, &[0, 1, 2]), Err(WeighError::NoVertex));
        assert_eq!(weigh(&ONE, 0, &[0, 1, 3]), Err(WeighError::NoVertex));
        let wide = [0.0, 0.0, 0.0, 2.0, 2.0, 0.0, 0.0, 2.0 + 1.0 / 256.0, 0.0];
        assert_eq!(weigh(&wide, 0, &[0, 1, 2]), Err(WeighError::Wide));
        assert_eq!(
            weigh(&wide, 0, &[1, 0, 2]),
            Ok(Weight {
                sum: 0,
                shadow: -512 * 513
            })
        );
    }
}
