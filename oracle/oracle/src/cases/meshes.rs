//! Stored calls that are accepted: one for each slip in rounding, sign, order or place that a port can
//! make, and small meshes of every kind of distance.

use super::{signs, Case};
use crate::call::MaxPlane;
use crate::model::DISTANCE_LIMIT;

pub fn rounding_slips() -> Vec<Case> {
    let group = "other orders of the same arithmetic";
    let cell = |corners: [f32; 8]| Case::new(group, [2; 3], corners.to_vec());
    vec![
        // the squared distance added in another order, and with a fused step
        Case::new(group, [3; 3], signs(0x0A0_9214, 27)).with_max_plane(),
        Case::new(group, [3; 3], signs(0x016_6401, 27)).with_max_plane(),
        // normal terms added in pairs, and with a fused step
        cell([-1.0, 0.0, 0.0, -1.0, 0.0, 0.0, 0.0, -1.0]),
        cell([0.0, -1.0, 0.0, 0.0, -2.0, 1.0, 0.0, 0.0]),
        // the sum times the reciprocal of the number of crossings
        cell([0.0, 0.0, 1.0, 0.0, 0.0, 0.0, -1.0, 0.0]),
        // the edges in another order
        cell([0.0, 0.0, 0.0, 2.0, -1.0, 0.0, 0.0, -1.0]),
        // the sign bit taken for the sign
        cell([-0.0, 1.0, 1.0, 1.0, 1.0, 1.0, 1.0, 1.0]),
        cell([-0.0, -1.0, -0.0, 0.0, 0.0, -0.0, 1.0, -0.0]),
        // all eight vertices lie at one place
        Case::new(
            group,
            [3; 3],
            [vec![-1.0; 13], vec![0.0], vec![-1.0; 13]].concat(),
        )
        .with_max_plane(),
    ]
}

pub fn crossings_of_one_cell() -> Vec<Case> {
    let group = "3 to 9 and 12 crossings";
    let patterns = [
        0x01, 0x03, 0x07, 0x09, 0x0B, 0x19, 0x0F, 0x29, 0x1B, 0x3C, 0x2D, 0x69, 0x96, 0x6B,
    ];
    let cell = |pattern: u32| {
        let corner = |i: u32| {
            let size = 1.0 + (i * i % 7) as f32 / 3.0;
            if pattern >> i & 1 == 1 {
                -size
            } else {
                size
            }
        };
        Case::new(group, [2; 3], (0..8).map(corner).collect())
    };
    patterns.map(cell).into()
}

pub fn signs_with_and_without_max_plane() -> Vec<Case> {
    let group = "signs, with and without max plane";
    let patterns = [
        ([3, 3, 3], 0x0000_0000_05A3_C96F),
        ([3, 3, 3], 0x0000_0000_0011_2410),
        ([4, 3, 3], 0x0000_000C_3A51_F096),
        ([3, 4, 3], 0x0000_0007_81E5_2D4B),
        ([3, 3, 4], 0x0000_0009_62B4_E1C3),
        ([4, 4, 4], 0x0000_0660_0660_0000),
        ([4, 4, 4], 0xA55A_5AA5_A55A_5AA5),
        ([4, 3, 2], 0x0000_0000_005C_A369),
    ];
    let both = |(dims, pattern): ([u32; 3], u64)| {
        let points = dims.iter().product::<u32>() as usize;
        let case = Case::new(group, dims, signs(pattern, points));
        [case.clone(), case.with_max_plane().with_exact_room()]
    };
    patterns.map(both).concat()
}

/// Document 02, request 4: flags that are neither all nor none. Ball, three axes of other lengths with exact
/// room, a box that ends before its grid does, and room for one index too few.
pub fn one_and_two_max_planes() -> Vec<Case> {
    let group = "one and two max planes";
    let mixed = || MaxPlane::every().filter(|flags| flags.is_mixed());
    let of_lengths = || Case::new(group, [5, 4, 3], signs(0x07B4_D85A_3C96_F10E, 60));
    let inside = || Case::new(group, [4, 5, 4], signs(0x3C96_F10E_27B4_D85A, 80));
    let mut cases = Vec::new();
    cases.extend(mixed().map(|flags| Case::ball(group).with_flags(flags)));
    cases.extend(mixed().map(|flags| of_lengths().with_flags(flags).with_exact_room()));
    cases.extend(mixed().map(|flags| inside().with_box([1; 3], [3, 4, 3]).with_flags(flags)));
    cases.extend(mixed().map(|flags| {
        let ball = Case::ball(group).with_flags(flags).with_exact_room();
        ball.with_room(|room| room.indices -= 1)
    }));
    cases
}

/// Boxes in the middle of a grid whose points outside are not-a-number or too large.
pub fn boxes_inside_a_spoiled_grid() -> Vec<Case> {
    let group = "boxes inside a spoiled grid";
    let dims = [5u32, 6, 5];
    let spoiled = |min: [u32; 3], max: [u32; 3], pattern: u64| {
        let mut grid = signs(pattern, 150);
        for (i, distance) in grid.iter_mut().enumerate() {
            let i = i as u32;
            let point = [i % 5, i / 5 % 6, i / 30];
            let inside = (0..3).all(|axis| min[axis] <= point[axis] && point[axis] <= max[axis]);
            if !inside {
                *distance = [f32::NAN, f32::INFINITY, -f32::MAX, -1.0][i as usize % 4];
            }
        }
        Case::new(group, dims, grid).with_box(min, max)
    };
    let boxes = [
        ([1, 2, 1], [3, 4, 3], 0x5A3C_96F1_0E27_B4D8),
        ([2, 0, 0], [4, 3, 2], 0x1248_8421_7BDE_A5C3),
        ([0, 3, 2], [2, 5, 4], 0x0F1E_2D3C_4B5A_6978),
        ([1, 1, 1], [2, 4, 2], 0xC3A5_F096_1E87_2D4B),
    ];
    let both = |(min, max, pattern)| {
        let case = spoiled(min, max, pattern);
        [case.clone(), case.with_max_plane()]
    };
    boxes.map(both).concat()
}

/// A small generator, so that the grids below are the same in every run.
fn scrambled(seed: u32, i: usize) -> u32 {
    let mut word = seed.wrapping_add(i as u32).wrapping_mul(0x9E37_79B1);
    word ^= word >> 15;
    word = word.wrapping_mul(0x85EB_CA77);
    word ^ (word >> 13)
}

/// The float with this bit pattern, negative if the word's top bit is set.
fn signed(word: u32, size: u32) -> f32 {
    f32::from_bits(size | (word & 1 << 31))
}

/// From 2^100 to the cap, subnormal, or any size up to the cap: far fill values beside small distances.
fn far_or_small(word: u32) -> u32 {
    let far = (100 + 127) << 23;
    let cap = DISTANCE_LIMIT.to_bits();
    match word % 3 {
        0 => far + word / 3 % (cap - far + 1),
        1 => word / 3 % (1 << 23),
        _ => word / 3 % (cap + 1),
    }
}

pub fn kinds_of_distances() -> Vec<Case> {
    let group = "kinds of distances";
    let few = [-2.0, -1.0, -0.0, 0.0, 1.0, 2.0, 3.0];
    let kinds: [fn(u32, [f32; 7]) -> f32; 6] = [
        |word, few| few[word as usize % 7],
        |word, _| signed(word, word % 40),
        |word, _| signed(word, word & 0x007F_FFFF),
        |word, _| signed(word, far_or_small(word)),
        |word, _| signed(word, DISTANCE_LIMIT.to_bits() - word % 3),
        |word, _| (word % 2001) as f32 / 1000.0 - 1.0,
    ];
    let shapes = [[3, 3, 3], [4, 3, 3]];
    let mut cases = Vec::new();
    for (seed, kind) in kinds.iter().enumerate() {
        for dims in shapes {
            let points = dims.iter().product::<u32>() as usize;
            let seed = 1000 * seed as u32 + dims[0];
            let grid = (0..points).map(|i| kind(scrambled(seed, i), few)).collect();
            let case = Case::new(group, dims, grid);
            cases.push(if dims[0] == 3 {
                case.with_max_plane()
            } else {
                case
            });
        }
    }
    cases.extend([sphere(group), sphere(group).with_max_plane(), slope(group)]);
    cases
}

fn by_point(dims: [u32; 3], distance: impl Fn(f32, f32, f32) -> f32) -> Vec<f32> {
    let points = 0..dims.iter().product::<u32>();
    points
        .map(|i| {
            distance(
                (i % dims[0]) as f32,
                (i / dims[0] % dims[1]) as f32,
                (i / dims[0] / dims[1]) as f32,
            )
        })
        .collect()
}

fn sphere(group: &'static str) -> Case {
    let dims = [6, 6, 5];
    let away = |x: f32, y: f32, z: f32| {
        let [x, y, z] = [x - 2.3, y - 2.6, z - 2.1];
        (x * x + y * y + z * z).sqrt() - 1.7
    };
    Case::new(group, dims, by_point(dims, away))
}

fn slope(group: &'static str) -> Case {
    let dims = [5, 4, 5];
    Case::new(
        group,
        dims,
        by_point(dims, |x, y, z| 0.3 * x - 0.7 * y + 0.9 * z - 1.1),
    )
}

pub fn flat_boxes() -> Vec<Case> {
    let group = "flat boxes";
    let flats = [
        ([0, 0, 0], [2, 0, 2]),
        ([0, 0, 1], [2, 2, 1]),
        ([1, 1, 0], [1, 1, 2]),
        ([2, 2, 2], [2, 2, 2]),
        ([1, 1, 1], [1, 1, 1]),
    ];
    flats
        .map(|(min, max)| Case::ball(group).with_box(min, max))
        .into()
}
