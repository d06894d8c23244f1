//! What meshes weigh, by the library: six times the volume over the plane z = 0 in cubed steps of 1/256, and the area seen from above. Of a mesh without a hole
//! the first is six times its volume.

use crate::mesh::Lists;
use bed::{WeighError, Weight};

pub fn of(lists: &Lists) -> Result<Weight, WeighError> {
    bed::weigh(lists.positions, 0, lists.indices)
}

/// Two weights added up, or why there is none.
pub fn together(
    one: Result<Weight, WeighError>,
    other: Result<Weight, WeighError>,
) -> Result<Weight, WeighError> {
    let (one, other) = (one?, other?);
    Ok(Weight {
        sum: one.sum + other.sum,
        shadow: one.shadow.saturating_add(other.shadow),
    })
}

pub const NOTHING: Weight = Weight { sum: 0, shadow: 0 };

/// The weight of a mesh that comes layer by layer. A triangle has its corners in its own layer and the one before.
pub struct InLayers {
    /// Of the last layer and this one.
    positions: Vec<f32>,
    /// How many of them are of the last one.
    last: usize,
    /// The number of the first vertex whose position is here.
    first: u32,
    /// So far.
    pub weight: Result<Weight, WeighError>,
}

impl Default for InLayers {
    fn default() -> Self {
        Self {
            positions: Vec::new(),
            last: 0,
            first: 0,
            weight: Ok(NOTHING),
        }
    }
}

impl InLayers {
    pub fn add(&mut self, lists: &Lists) {
        if self.weight.is_err() {
            return;
        }
        self.positions.drain(..self.last);
        self.first += (self.last / 3) as u32;
        self.last = self.positions.len();
        self.positions.extend(lists.positions);
        let more = bed::weigh(&self.positions, self.first, lists.indices);
        self.weight = together(self.weight, more);
    }
}

const CUBED_STEP: u128 = 6 * 256 * 256 * 256;
const SQUARED_STEP: u128 = 2 * 256 * 256;

/// A six-fold sum in cubed grid steps, to three places, the rest left off.
pub fn in_grid_steps(sixfold: i128) -> String {
    to_three_places(sixfold, CUBED_STEP)
}

/// The area seen from above in squared grid steps, likewise.
pub fn shadow_in_grid_steps(shadow: i64) -> String {
    to_three_places(shadow.into(), SQUARED_STEP)
}

/// A six-fold sum in cubed grid steps, as the nearest number of 64 bits.
pub fn as_number(sixfold: i128) -> f64 {
    sixfold as f64 / CUBED_STEP as f64
}

fn to_three_places(sum: i128, unit: u128) -> String {
    let sign = if sum < 0 { "-" } else { "" };
    let size = sum.unsigned_abs();
    let thousandths = size % unit * 1000 / unit;
    format!("{sign}{}.{thousandths:03}", size / unit)
}

#[cfg(test)]
mod tests {
    use super::*;

    fn lists(positions: &'static [f32], indices: &'static [u32]) -> Lists<'static> {
        Lists {
            positions,
            normals: positions,
            indices,
            crossings: None,
        }
    }

    #[test]
    fn layers_add_up() {
        let mut layers = InLayers::default();
        layers.add(&lists(&[0.0, 0.0, 0.0, 1.0, 0.0, 0.0], &[]));
        layers.add(&lists(
            &[0.0, 1.0, 0.0, 0.0, 0.0, 1.0],
            &[0, 2, 1, 0, 1, 3, 0, 3, 2, 1, 2, 3],
        ));
        let one = Ok(Weight {
            sum: 256 * 256 * 256,
            shadow: 0,
        });
        assert_eq!(layers.weight, one);
        layers.add(&lists(&[], &[]));
        layers.add(&lists(&[128.0, 128.0, 128.0], &[4, 4, 4]));
        assert_eq!(layers.weight, one);
        let mut early = InLayers::default();
        early.add(&lists(&[0.0; 6], &[]));
        early.add(&lists(&[0.0; 6], &[]));
        early.add(&lists(&[0.0; 3], &[1, 2, 3]));
        assert_eq!(early.weight, Err(WeighError::NoVertex));
        layers.add(&lists(&[128.0, -1.0, 128.0], &[]));
        layers.add(&lists(&[0.0; 9], &[]));
        assert_eq!(layers.weight, Err(WeighError::Outside));
        assert_eq!(together(one, layers.weight), Err(WeighError::Outside));
    }

    #[test]
    fn in_words() {
        assert_eq!(in_grid_steps(0), "0.000");
        assert_eq!(in_grid_steps(6 * 256 * 256 * 256), "1.000");
        assert_eq!(in_grid_steps(-256 * 256 * 256), "-0.166");
        assert_eq!(shadow_in_grid_steps(3 * 256 * 256), "1.500");
        assert_eq!(as_number(9 * 256 * 256 * 256), 1.5);
    }
}
