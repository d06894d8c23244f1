//! Compares the proved weighing of a mesh of any size with a plain reading in integers of 128 bits.
//!
//! The lists are made with a fixed seed, so that two runs compare the same ones. Exit status 0: all agreed, enough
//! were compared, each answer came up but 75, whose list would hold 96 GiB, and every law held. Exit status 1: not so.

#[path = "../../compare/src/random.rs"]
#[allow(dead_code)]
mod random;
mod reading;

use bed::SurfaceNetsBuffer;
use random::Random;
use std::collections::BTreeMap;
use std::process::ExitCode;

const SEED: u64 = 0xBED0_0076;
/// What a run must reach, in lists.
const ENOUGH: u64 = 300_000;
const ANSWERS: [u32; 5] = [0, 61, 63, 64, 76];

/// Coordinates at the ends, by their bits: zeros, the smallest floats, 1/256, 1, 2 and 16,777,216 with their
/// neighbours, what is not finite.
const ENDS: [u32; 22] = [
    0x0000_0000,
    0x8000_0000,
    0x0000_0001,
    0x8000_0001,
    0x007F_FFFF,
    0x0080_0000,
    0x3B7F_FFFF,
    0x3B80_0000,
    0x3B80_0001,
    0x3F7F_FFFF,
    0x3F80_0000,
    0x4000_0000,
    0x4000_0001,
    0x4B7F_FFFF,
    0x4B80_0000,
    0x4B80_0001,
    0xBB80_0000,
    0xCB80_0000,
    0x7F7F_FFFF,
    0x7F80_0000,
    0xFF80_0000,
    0x7FC0_0000,
];

#[derive(Default)]
struct Tally {
    answers: BTreeMap<u32, u64>,
    below_zero: u64,
    past_64_bits: u64,
    differing: u64,
}

impl Tally {
    /// One list, by both; what the library says.
    fn compare(&mut self, positions: &[f32], first: u32, indices: &[u32]) -> Option<(i128, i128)> {
        let (mut low, mut high, mut shadow) = (0x5555, 0x5555, 0x5555);
        // SAFETY: the pointers and lengths come from slices, and the last three are variables of their own.
        let answer = unsafe {
            bed::raw::bed_weigh(
                positions.as_ptr(),
                positions.len(),
                first,
                indices.as_ptr(),
                indices.len(),
                &mut low,
                &mut high,
                &mut shadow,
            )
        };
        let sum = i128::from(high) * (1 << 64) + i128::from(low);
        *self.answers.entry(answer).or_default() += 1;
        self.below_zero += u64::from(sum < 0);
        self.past_64_bits += u64::from(i64::try_from(sum).is_err());
        let read = reading::weigh(positions, first, indices);
        self.differing += u64::from((answer, sum, i128::from(shadow)) != read);
        let said = bed::weigh(positions, first, indices);
        let told = match said {
            Ok(w) => (0, w.sum, i128::from(w.shadow)),
            Err(e) => (e.number(), 0, 0),
        };
        self.differing += u64::from(told != read);
        said.ok().map(|w| (w.sum, i128::from(w.shadow)))
    }

    fn print(&self, name: &str) {
        let answers: Vec<String> = self
            .answers
            .iter()
            .map(|(a, n)| format!("{a}: {n}"))
            .collect();
        println!(
            "{name}: {}, below zero {}, past 64 bits {}, differing {}",
            self.lists(),
            self.below_zero,
            self.past_64_bits,
            self.differing
        );
        println!("    by answer {}", answers.join(", "));
    }

    fn lists(&self) -> u64 {
        self.answers.values().sum()
    }

    fn add(&mut self, other: &Tally) {
        for (&answer, lists) in &other.answers {
            *self.answers.entry(answer).or_default() += lists;
        }
        self.below_zero += other.below_zero;
        self.past_64_bits += other.past_64_bits;
        self.differing += other.differing;
    }
}

/// A coordinate of any size up to 16,777,216.
fn any_coordinate(random: &mut Random) -> f32 {
    match random.between(0, 2) {
        0 => f32::from_bits(random.between(0, 0x4B80_0000) as u32),
        1 => random.between(0, 16_777_216) as f32,
        _ => random.between(0, 1 << 20) as f32 / 256.0,
    }
}

/// A coordinate some steps from a middle: up to `spread` of them, and now and then one at the ends.
fn coordinate(random: &mut Random, middle: f32, spread: u64, ends: u64) -> f32 {
    if random.one_in(ends) {
        return f32::from_bits(random.pick(&ENDS));
    }
    let off = random.between(0, spread) as f32 / 256.0;
    let x = (middle + off).clamp(0.0, 16_777_216.0);
    // a float's neighbour, so that steps are not all whole
    if random.one_in(2) && x > 0.0 {
        f32::from_bits(x.to_bits() - 1)
    } else {
        x
    }
}

fn random_lists(random: &mut Random) -> Tally {
    let mut tally = Tally::default();
    for _ in 0..300_000 {
        let vertices = random.between(0, 9);
        let ends = random.pick(&[30, 300, 3_000_000]);
        let spread = random.pick(&[256, 510, 512, 513, 514, 600, 2_000]);
        let middle = [0; 2].map(|_| any_coordinate(random));
        let high = random.one_in(2);
        let mut positions = Vec::new();
        for _ in 0..vertices {
            for m in middle {
                positions.push(coordinate(random, m, spread, ends));
            }
            let z = any_coordinate(random);
            positions.push(if high {
                z
            } else {
                coordinate(random, 3.0, 700, ends)
            });
        }
        if random.one_in(12) {
            for _ in 0..random.between(1, 2) {
                positions.push(1.0);
            }
        }
        let first = match random.between(0, 3) {
            0 => 0,
            1 => random.between(0, 5) as u32,
            2 => u32::MAX - random.between(0, 10) as u32,
            _ => random.between(0, u64::from(u32::MAX)) as u32,
        };
        let triangles = random.between(0, 12);
        let spoiled = if random.one_in(12) {
            random.between(1, 2)
        } else {
            0
        };
        let beyond = u64::from(random.one_in(8));
        let indices: Vec<u32> = (0..3 * triangles + spoiled)
            .map(|_| {
                if random.one_in(500) {
                    random.pick(&[u32::MAX, 0, first.wrapping_sub(1)])
                } else {
                    first.wrapping_add(random.between(0, (vertices + beyond).max(1) - 1) as u32)
                }
            })
            .collect();
        tally.compare(&positions, first, &indices);
    }
    tally
}

/// Each end at each place of an otherwise good list, used by a triangle or not.
fn each_end() -> Tally {
    let mut tally = Tally::default();
    for end in ENDS {
        for at in 0..12 {
            let mut positions = [
                0.5, 1.5, 2.5, 1.25, 0.75, 3.0, 1.0, 2.0, 64.0, 0.0, 1.0, 11.0,
            ];
            positions[at] = f32::from_bits(end);
            for first in [0, 5] {
                for indices in [
                    &[][..],
                    &[0, 1, 2][..],
                    &[3, 2, 1][..],
                    &[0, 1, 4][..],
                    &[0, 1][..],
                ] {
                    let moved: Vec<u32> = indices.iter().map(|i| i + first).collect();
                    tally.compare(&positions, first, &moved);
                }
            }
        }
    }
    tally
}

/// Every width about 512 steps, of the second and of the third corner, on both axes, up and down, near and far.
fn widths() -> Tally {
    let mut tally = Tally::default();
    for middle in [3.0, 100.0, 4_000.0] {
        for axis in 0..2 {
            for corner in 1..3 {
                for steps in (-515..=-509).chain(-1..=1).chain(509..=515) {
                    let mut positions = [middle; 9];
                    positions[3 * corner + axis] = middle + steps as f32 / 256.0;
                    tally.compare(&positions, 0, &[0, 1, 2]);
                    tally.compare(&positions, 0, &[1, 2, 0]);
                    tally.compare(&positions, 0, &[2, 0, 1]);
                }
            }
        }
    }
    tally
}

/// Many triangles of the largest weight, both ways round, past 64 bits.
fn largest(faults: &mut u64) -> Tally {
    let mut tally = Tally::default();
    let top = 16_777_216.0;
    let corners = [
        top - 2.0,
        top,
        top,
        top - 2.0,
        top - 2.0,
        top,
        top,
        top,
        top,
    ];
    // in steps 512 by 512 in x and y: 2^18, and 3 · 2^32 in z
    for (turn, sign) in [([0, 1, 2], 1), ([0, 2, 1], -1)] {
        for triangles in [1, 4_095, 16_385, 100_000] {
            let weight = tally.compare(&corners, 0, &turn.repeat(triangles));
            let n = sign * triangles as i128;
            *faults += u64::from(weight != Some((n * (3 << 50), n << 18)));
        }
    }
    tally
}

/// A mesh of the library.
fn mesh(
    sdf: &[f32],
    dims: [u32; 3],
    min: [u32; 3],
    max: [u32; 3],
    plane: bed::MaxPlane,
) -> (Vec<f32>, Vec<u32>) {
    let mut buffer = SurfaceNetsBuffer::default();
    bed::surface_nets(sdf, dims, min, max, plane, &mut buffer).expect("a good call");
    (buffer.positions.concat(), buffer.indices)
}

fn plus(a: (i128, i128), b: (i128, i128)) -> (i128, i128) {
    (a.0 + b.0, a.1 + b.1)
}

/// Meshes of the library, closed and not: none refused; turned round, cut in two, in parts, from a later first
/// vertex, moved up; where closed, the volume's own sum.
fn meshes(random: &mut Random, faults: &mut u64) -> Tally {
    let mut tally = Tally::default();
    let (mut closed, mut cuts, mut parts) = (0, 0, 0);
    for round in 0..8_000 {
        let dims = [0; 3].map(|_| random.between(4, 9) as u32);
        let inside = random.between(2, 6);
        let high = dims.map(|n| n - 1);
        let sdf: Vec<f32> = (0..dims[0] * dims[1] * dims[2])
            .map(|i| {
                let p = [i % dims[0], i / dims[0] % dims[1], i / (dims[0] * dims[1])];
                let inner = round % 3 == 0 || (0..3).all(|a| p[a] >= 1 && p[a] + 2 <= high[a]);
                let size = random.pick(&[1.0, 1.0, 0.5, 3.0, 512.0, 0.001]);
                if inner && random.one_in(inside) {
                    -size
                } else {
                    size
                }
            })
            .collect();
        let flags = [0; 3].map(|_| random.one_in(2));
        let plane = |x, y, z| bed::MaxPlane { x, y, z };
        let whole_plane = plane(flags[0], flags[1], flags[2]);
        let (positions, indices) = mesh(&sdf, dims, [0; 3], high, whole_plane);
        let Some(whole) = tally.compare(&positions, 0, &indices) else {
            *faults += 1;
            continue;
        };
        let turned: Vec<u32> = indices.chunks(3).flat_map(|t| [t[0], t[2], t[1]]).collect();
        let back = tally.compare(&positions, 0, &turned);
        *faults += u64::from(back != Some((-whole.0, -whole.1)));
        // from a later first vertex, in two parts
        let first = random.between(0, 1 << 31) as u32;
        let later: Vec<u32> = indices.iter().map(|i| i + first).collect();
        let at = 3 * random.between(0, indices.len() as u64 / 3) as usize;
        let halves =
            [&later[..at], &later[at..]].map(|half| tally.compare(&positions, first, half));
        parts += 1;
        *faults += u64::from(halves[0].zip(halves[1]).map(|(a, b)| plus(a, b)) != Some(whole));
        if bed::is_enclosed(&sdf, dims, [0; 3], high) == Ok(true) {
            closed += 1;
            let volume = bed::volume(&positions, &indices).map(i128::from);
            *faults += u64::from(volume != Ok(whole.0) || whole.1 != 0);
        }
        // up by whole steps: the sum grows by three times as many shadows
        let steps = random.between(0, 1 << 20);
        let up: Vec<f32> = positions
            .iter()
            .enumerate()
            .map(|(at, &x)| {
                let n = reading::steps_of(x) as u64 + if at % 3 == 2 { steps } else { 0 };
                n as f32 / 256.0
            })
            .collect();
        let grown = (whole.0 + 3 * i128::from(steps) * whole.1, whole.1);
        *faults += u64::from(tally.compare(&up, 0, &indices) != Some(grown));
        let axis = random.between(0, 2) as usize;
        let k = random.between(0, u64::from(high[axis]) - 1) as u32;
        let (mut top, mut bottom) = (high, [0; 3]);
        top[axis] = k + 1;
        bottom[axis] = k;
        let mut lower = flags;
        lower[axis] = false;
        let pieces = [
            mesh(&sdf, dims, [0; 3], top, plane(lower[0], lower[1], lower[2])),
            mesh(&sdf, dims, bottom, high, whole_plane),
        ]
        .map(|(p, i)| tally.compare(&p, 0, &i));
        cuts += 1;
        *faults += u64::from(pieces[0].zip(pieces[1]).map(|(a, b)| plus(a, b)) != Some(whole));
    }
    println!(
        "meshes cut in two, the parts adding up to the whole: {cuts}; lists in two parts: {parts}; \
         closed meshes, with the volume's sum: {closed}"
    );
    tally
}

fn main() -> ExitCode {
    println!("seed {SEED:#x}");
    let mut random = Random::new(SEED);
    let mut faults = 0;
    let mut all = Tally::default();
    for (name, tally) in [
        ("random lists", random_lists(&mut random)),
        ("each end at each place", each_end()),
        ("widths about 512 steps", widths()),
        ("the largest weights", largest(&mut faults)),
        ("meshes of the library", meshes(&mut random, &mut faults)),
    ] {
        tally.print(name);
        all.add(&tally);
    }
    all.print("all lists");
    println!("laws that failed: {faults}");
    let lacking = ANSWERS.iter().any(|a| !all.answers.contains_key(a));
    if all.differing == 0 && faults == 0 && all.lists() >= ENOUGH && !lacking {
        println!("ALL AGREE");
        ExitCode::SUCCESS
    } else {
        println!("NOT ALL AGREE");
        ExitCode::FAILURE
    }
}
