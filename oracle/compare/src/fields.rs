//! The kinds of distances that random grids hold, each to bring out another slip.

use crate::random::Random;
use crate::CAP;

/// A kind of field: its name in the report and the distance that it gives to each point of a grid.
#[derive(Clone, Copy)]
pub struct Field {
    pub name: &'static str,
    pub make: fn(&mut Random, [u32; 3], &mut [f32]),
}

impl Field {
    /// Fills a grid of these dimensions, x innermost.
    pub fn fill(&self, random: &mut Random, dims: [u32; 3], grid: &mut [f32]) {
        (self.make)(random, dims, grid);
    }
}

pub const FIELDS: [Field; 11] = [
    Field {
        name: "signs",
        make: signs,
    },
    Field {
        name: "balls",
        make: ball,
    },
    Field {
        name: "planes",
        make: plane,
    },
    Field {
        name: "zeros of both signs",
        make: zeros,
    },
    Field {
        name: "subnormals",
        make: subnormals,
    },
    Field {
        name: "sizes to 2^124",
        make: all_sizes,
    },
    Field {
        name: "near 2^124",
        make: near_the_cap,
    },
    Field {
        name: "ties",
        make: ties,
    },
    Field {
        name: "checkers",
        make: checkers,
    },
    Field {
        name: "few small values",
        make: few_small_values,
    },
    Field {
        name: "noise",
        make: noise,
    },
];

/// The bits of 2^100, from which on distances are far fill values.
const FAR: u32 = (100 + 127) << 23;

fn each_apart(grid: &mut [f32], mut distance: impl FnMut() -> f32) {
    grid.iter_mut().for_each(|d| *d = distance());
}

fn by_point(dims: [u32; 3], grid: &mut [f32], mut distance: impl FnMut([f32; 3]) -> f32) {
    let [row, column, _] = dims.map(|dim| dim as usize);
    for (i, d) in grid.iter_mut().enumerate() {
        let point = [i % row, i / row % column, i / row / column];
        *d = distance(point.map(|coordinate| coordinate as f32));
    }
}

/// Plus or minus one: most diagonals are close, and the order of the squared distance shows.
fn signs(random: &mut Random, _: [u32; 3], grid: &mut [f32]) {
    let negative_one_in = random.between(2, 5);
    each_apart(grid, || {
        if random.one_in(negative_one_in) {
            -1.0
        } else {
            1.0
        }
    });
}

fn anywhere(random: &mut Random, dims: [u32; 3]) -> [f32; 3] {
    dims.map(|dim| (random.signed_unit() + 1.0) * 0.5 * dim as f32)
}

fn ball(random: &mut Random, dims: [u32; 3], grid: &mut [f32]) {
    let middle = anywhere(random, dims);
    let radius =
        (random.signed_unit() + 1.0) * 0.4 * dims[0].max(dims[1]).max(dims[2]) as f32 + 0.3;
    let side = random.signed(1.0);
    by_point(dims, grid, |point| {
        let squares = (0..3).map(|k| (point[k] - middle[k]) * (point[k] - middle[k]));
        side * (squares.sum::<f32>().sqrt() - radius)
    });
}

fn plane(random: &mut Random, dims: [u32; 3], grid: &mut [f32]) {
    let through = anywhere(random, dims);
    let along: [f32; 3] = std::array::from_fn(|_| random.signed_unit());
    by_point(dims, grid, |point| {
        (0..3).map(|k| along[k] * (point[k] - through[k])).sum()
    });
}

fn zeros(random: &mut Random, _: [u32; 3], grid: &mut [f32]) {
    each_apart(grid, || random.pick(&[0.0, -0.0, 1.0, -1.0, -0.0, 0.0]));
}

fn subnormals(random: &mut Random, _: [u32; 3], grid: &mut [f32]) {
    let widest = random.pick(&[3, 40, 8_388_607, 16_777_216]);
    each_apart(grid, || {
        let size = f32::from_bits(random.coordinate(0, widest));
        random.signed(size)
    });
}

/// From 2^100 to the cap, subnormal, and any bit pattern up to the cap, mixed, both signs: fractions underflow beside
/// differences that nearly overflow.
fn all_sizes(random: &mut Random, _: [u32; 3], grid: &mut [f32]) {
    each_apart(grid, || {
        let (low, high) = random.pick(&[(FAR, CAP.to_bits()), (0, 1 << 23), (0, CAP.to_bits())]);
        let size = f32::from_bits(random.coordinate(low, high));
        random.signed(size)
    });
}

fn near_the_cap(random: &mut Random, _: [u32; 3], grid: &mut [f32]) {
    each_apart(grid, || {
        let below = random.pick(&[0, 0, 1, 2, 1 << 23, 40 << 23]);
        random.signed(f32::from_bits(CAP.to_bits() - below))
    });
}

/// A block of one size in a surrounding of one size: the surface is flat and its diagonals tie.
fn ties(random: &mut Random, dims: [u32; 3], grid: &mut [f32]) {
    let low = anywhere(random, dims);
    let high = anywhere(random, dims);
    let inside = random.pick(&[-1.0, -3.0, 1.0, -0.7]);
    let outside = -inside * random.pick(&[1.0, 0.5, 5.0]);
    by_point(dims, grid, |point| {
        let within =
            (0..3).all(|k| low[k].min(high[k]) <= point[k] && point[k] <= low[k].max(high[k]));
        if within {
            inside
        } else {
            outside
        }
    });
}

/// Neighbours of other sign nearly everywhere: up to twelve crossings in a cell.
fn checkers(random: &mut Random, dims: [u32; 3], grid: &mut [f32]) {
    let one_size = random.one_in(2);
    let turned_one_in = random.pick(&[4, 16, 1000]);
    by_point(dims, grid, |point| {
        let even = (point[0] + point[1] + point[2]) % 2.0 == 0.0;
        let turned = random.one_in(turned_one_in);
        let size = if one_size {
            1.0
        } else {
            random.coordinate(1, 9) as f32
        };
        if even != turned {
            -size
        } else {
            size
        }
    });
}

fn few_small_values(random: &mut Random, _: [u32; 3], grid: &mut [f32]) {
    each_apart(grid, || {
        random.pick(&[-2.0, -1.0, -0.0, 0.0, 1.0, 2.0, 3.0])
    });
}

fn noise(random: &mut Random, _: [u32; 3], grid: &mut [f32]) {
    each_apart(grid, || random.signed_unit());
}
