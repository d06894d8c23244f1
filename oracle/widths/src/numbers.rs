//! The kinds of whole numbers that random grids hold, each to bring out another slip.

use crate::fields::{Field, FIELDS};
use crate::random::Random;
use crate::width::Whole;

/// The kinds, each within the range of a width.
pub fn numbers<D: Whole>() -> [Field; 9] {
    [
        Field {
            name: "any numbers",
            make: any::<D>,
        },
        Field {
            name: "the ends of the range and around zero",
            make: ends::<D>,
        },
        Field {
            name: "-1, 0 and 1",
            make: up_to::<1>,
        },
        Field {
            name: "-2 to 2",
            make: up_to::<2>,
        },
        Field {
            name: "signs",
            make: |random, dims, grid| named("signs").fill(random, dims, grid),
        },
        Field {
            name: "balls",
            make: |random, dims, grid| enlarged::<D>("balls", random, dims, grid),
        },
        Field {
            name: "planes",
            make: |random, dims, grid| enlarged::<D>("planes", random, dims, grid),
        },
        Field {
            name: "ties",
            make: |random, dims, grid| enlarged::<D>("ties", random, dims, grid),
        },
        Field {
            name: "checkers",
            make: |random, dims, grid| enlarged::<D>("checkers", random, dims, grid),
        },
    ]
}

fn any<D: Whole>(random: &mut Random, _: [u32; 3], grid: &mut [f32]) {
    grid.iter_mut().for_each(|d| *d = any_number::<D>(random));
}

/// A number of the width's range.
pub fn any_number<D: Whole>(random: &mut Random) -> f32 {
    let above_least = random.between(0, (D::MOST - D::LEAST) as u64);
    (D::LEAST + above_least as i32) as f32
}

fn ends<D: Whole>(random: &mut Random, _: [u32; 3], grid: &mut [f32]) {
    let few = [D::LEAST, D::LEAST + 1, -1, 0, 1, D::MOST - 1, D::MOST];
    grid.iter_mut().for_each(|d| *d = random.pick(&few) as f32);
}

/// Few small numbers: squared distances tie, and the order of their sums shows.
fn up_to<const MOST: i32>(random: &mut Random, _: [u32; 3], grid: &mut [f32]) {
    let number = |random: &mut Random| random.between(0, 2 * MOST as u64) as i32 - MOST;
    grid.iter_mut().for_each(|d| *d = number(random) as f32);
}

/// A kind of the comparison of floats.
fn named(name: &str) -> &'static Field {
    let mut fields = FIELDS.iter();
    fields.find(|field| field.name == name).expect("it is one")
}

/// A kind of the comparison of floats in finer units, so that whole numbers tell it; what is past an end of the
/// range becomes that end.
fn enlarged<D: Whole>(name: &str, random: &mut Random, dims: [u32; 3], grid: &mut [f32]) {
    named(name).fill(random, dims, grid);
    let times = random.pick(&[1.0, 3.0, 20.0, 3000.0]);
    let (least, most) = (D::LEAST as f32, D::MOST as f32);
    for d in grid {
        *d = (*d * times).round().clamp(least, most);
    }
}
