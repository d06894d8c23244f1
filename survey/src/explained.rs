//! Why the library refused a grid, with what it does not say itself: where a bad distance stands and how many there are, and both
//! counts where the length is wrong. That is looked up here, after the answer, and decides nothing.

use crate::distances::Distances;
use crate::grid::Grid;
use crate::numbers::Header;
use bed::{Block, Refusal};

/// The refusal of a block of a grid in memory, in words.
pub fn of_a_block(refusal: Refusal, grid: &Grid, block: &Block) -> String {
    match refusal {
        Refusal::GridLength => length(&grid.header, grid.distances.len() as u64),
        Refusal::Distance => {
            let mut bad = Bad::default();
            if let Distances::Float32(list) = &grid.distances {
                let plane = grid.header.plane() as usize;
                for z in block.min[2]..=block.max[2] {
                    let layer = list.get(z as usize * plane..).unwrap_or(&[]);
                    bad.add(z, layer, &grid.header, block);
                }
            }
            bad.words()
        }
        other => other.to_string(),
    }
}

/// Answer 3 of a grid with so many numbers.
pub fn length(header: &Header, found: u64) -> String {
    let ([x, y, z], points) = (header.dims, header.points());
    let refusal = Refusal::GridLength;
    format!("{refusal}: {found} numbers are there, {x} x {y} x {z} = {points} are wanted")
}

/// The bad distances of a box, layer after layer.
#[derive(Default)]
pub struct Bad {
    count: u64,
    first: Option<([u32; 3], f32)>,
}

impl Bad {
    /// Looks at the box's points of the layer at z.
    pub fn add(&mut self, z: u32, layer: &[f32], header: &Header, block: &Block) {
        for y in block.min[1]..=block.max[1] {
            for x in block.min[0]..=block.max[0] {
                let place = x as usize + header.dims[0] as usize * y as usize;
                let Some(&distance) = layer.get(place) else {
                    continue;
                };
                if !(distance.abs() <= 2f32.powi(124)) {
                    self.count += 1;
                    self.first.get_or_insert(([x, y, z], distance));
                }
            }
        }
    }

    /// Answer 5, in words.
    pub fn words(&self) -> String {
        let refusal = Refusal::Distance;
        match (self.first, self.count) {
            (Some(([x, y, z], distance)), 1) => {
                format!("{refusal}: the only one stands at x {x}, y {y}, z {z} and is {distance}")
            }
            (Some(([x, y, z], distance)), count) => format!(
                "{refusal}: {count} of them, the first at x {x}, y {y}, z {z} is {distance}"
            ),
            (None, _) => refusal.to_string(),
        }
    }
}
