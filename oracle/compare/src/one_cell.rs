//! All 256 sign patterns of one cell, each with many sizes of distance.

use crate::calls::{some_flags, OwnCall};
use crate::random::Random;

/// How many sizes each pattern is tried with.
pub const SIZES: u32 = 60;

/// A grid of one cell whose corner i is negative if bit i of the pattern is set.
pub fn cell(random: &mut Random, pattern: u32, size: u32) -> OwnCall {
    let grid = (0..8).map(|corner| {
        let distance = distance(random, size);
        if pattern >> corner & 1 == 1 {
            -distance
        } else {
            distance
        }
    });
    OwnCall {
        grid: grid.collect(),
        dims: [2; 3],
        min: [0; 3],
        max: [1; 3],
        max_plane: some_flags(random),
    }
}

/// One, small whole numbers, any float below the cap, subnormals, and the cap itself beside a tiny one.
/// The smallest is above 0, so that the sign stays what the pattern says.
fn distance(random: &mut Random, size: u32) -> f32 {
    let cap = oracle::model::DISTANCE_LIMIT;
    match size % 6 {
        0 => 1.0,
        1 => random.coordinate(1, 4) as f32,
        2 => f32::from_bits(random.coordinate(1, cap.to_bits())),
        3 => f32::from_bits(random.coordinate(1, 8_388_607)),
        4 => random.pick(&[cap, f32::from_bits(1), f32::MIN_POSITIVE]),
        _ => (random.signed_unit() + 1.5) * 2.0,
    }
}
