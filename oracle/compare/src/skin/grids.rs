//! Random closed grids, and ways to break the premise of one.

use crate::calls::{in_dimensions, OwnCall};
use crate::fields::Field;
use crate::random::Random;
use oracle::enclosed::margin;

const SHORTEST: u32 = 4;
const LONGEST: u32 = 9;

/// An accepted call on a field whose distances below zero, where they lie in the box's margin, are turned
/// to their opposites. Inside the margin the signs stay, so that crowded squares come up.
pub fn closed(random: &mut Random, field: &Field) -> OwnCall {
    let mut call = in_some_dimensions(random, field);
    while !has_inside(&call) && !random.one_in(8) {
        call = in_some_dimensions(random, field);
    }
    let places: Vec<usize> = margin(&call.view())
        .map(|point| call.index(point))
        .collect();
    for place in places {
        if call.grid[place] < 0.0 {
            call.grid[place] = -call.grid[place];
        }
    }
    call
}

fn in_some_dimensions(random: &mut Random, field: &Field) -> OwnCall {
    let dims = std::array::from_fn(|_| random.coordinate(SHORTEST, LONGEST));
    in_dimensions(random, field, dims)
}

/// Whether some point is from min + 1 to max - 2 on each axis.
fn has_inside(call: &OwnCall) -> bool {
    (0..3).all(|axis| call.max[axis] - call.min[axis] >= 3)
}

/// One way to break the premise: a negative point that is not from min + 1 to max - 2 on one axis.
pub struct Break {
    pub name: &'static str,
    coordinate: fn(u32, u32) -> u32,
}

pub const BREAKS: [Break; 3] = [
    Break {
        name: "at min",
        coordinate: |min, _| min,
    },
    Break {
        name: "at max - 1",
        coordinate: |_, max| max - 1,
    },
    Break {
        name: "at max",
        coordinate: |_, max| max,
    },
];

pub const AT_MIN: usize = 0;
pub const BEFORE_MAX: usize = 1;
pub const AT_MAX: usize = 2;

impl Break {
    /// The grid with one such point, inside on the two other axes. None where the box has no inside.
    pub fn apply(&self, random: &mut Random, call: &OwnCall) -> Option<OwnCall> {
        if !has_inside(call) {
            return None;
        }
        let axis = random.between(0, 2) as usize;
        let mut point: [u32; 3] =
            std::array::from_fn(|k| random.coordinate(call.min[k] + 1, call.max[k] - 2));
        point[axis] = (self.coordinate)(call.min[axis], call.max[axis]);
        let mut broken = call.clone();
        let place = broken.index(point);
        broken.grid[place] = -1.0;
        Some(broken)
    }
}
