//! Compares the proved volume with a plain reading of document 02's request 14.
//!
//! The lists are made with a fixed seed, so that two runs compare the same ones. Exit status 0: all
//! agreed, enough were compared, each answer came up and every law held. Exit status 1: not so.

#[path = "../../compare/src/random.rs"]
#[allow(dead_code)]
mod random;
mod reading;

use bed::SurfaceNetsBuffer;
use random::Random;
use std::collections::BTreeMap;
use std::process::ExitCode;

const SEED: u64 = 0xBED0_0014;
/// What a run must reach, in lists.
const ENOUGH: u64 = 100_000;
const ANSWERS: [u32; 5] = [0, 61, 62, 63, 64];

/// Coordinates at the ends, by their bits: zeros, the smallest floats, 1/256 and 128 with their
/// neighbours, what is not finite.
const ENDS: [u32; 17] = [
    0x0000_0000,
    0x8000_0000,
    0x0000_0001,
    0x8000_0001,
    0x007F_FFFF,
    0x0080_0000,
    0x3B7F_FFFF,
    0x3B80_0000,
    0x3B80_0001,
    0x42FF_FFFF,
    0x4300_0000,
    0x4300_0001,
    0xBB80_0000,
    0x7F7F_FFFF,
    0x7F80_0000,
    0xFF80_0000,
    0x7FC0_0000,
];

#[derive(Default)]
struct Tally {
    answers: BTreeMap<u32, u64>,
    below_zero: u64,
    differing: u64,
}

impl Tally {
    /// One list, by both; what the library says.
    fn compare(&mut self, positions: &[f32], indices: &[u32]) -> Option<i64> {
        let mut volume = 0x5555_5555_5555_5555;
        // SAFETY: the pointers and lengths come from slices, and `volume` is a variable of its own.
        let answer = unsafe {
            bed::raw::bed_volume(
                positions.as_ptr(),
                positions.len(),
                indices.as_ptr(),
                indices.len(),
                &mut volume,
            )
        };
        *self.answers.entry(answer).or_default() += 1;
        self.below_zero += u64::from(volume < 0);
        self.differing +=
            u64::from((answer, i128::from(volume)) != reading::weigh(positions, indices));
        let said = bed::volume(positions, indices);
        self.differing +=
            u64::from(said.map_or_else(|e| (e.number(), 0), |v| (0, v)) != (answer, volume));
        said.ok()
    }

    fn print(&self, name: &str) {
        let answers: Vec<String> = self
            .answers
            .iter()
            .map(|(a, n)| format!("{a}: {n}"))
            .collect();
        println!(
            "{name}: {}, below zero {}, differing {}",
            self.lists(),
            self.below_zero,
            self.differing
        );
        println!("    by answer {}", answers.join(", "));
    }

    fn lists(&self) -> u64 {
        self.answers.values().sum()
    }

    fn add(&mut self, other: &Tally) {
        for (&answer, lists) in &other.answers {
            *self.answers.entry(answer).or_default() += lists;
        }
        self.below_zero += other.below_zero;
        self.differing += other.differing;
    }
}

/// A coordinate from 0 to 128 of any size, now and then one at the ends.
fn coordinate(random: &mut Random, ends: u64) -> f32 {
    if random.one_in(ends) {
        return f32::from_bits(random.pick(&ENDS));
    }
    let bits = match random.between(0, 2) {
        // any float from 0 to 128 by its bits, by its steps, or near a whole step
        0 => random.between(0, 0x4300_0000) as u32,
        1 => (random.between(0, 32_768) as f32 / 256.0).to_bits(),
        _ => (random.between(1, 32_767) as f32 / 256.0).to_bits() + random.between(0, 2) as u32 - 1,
    };
    f32::from_bits(bits)
}

fn random_lists(random: &mut Random) -> Tally {
    let mut tally = Tally::default();
    for _ in 0..120_000 {
        let vertices = random.between(0, 9);
        let ends = random.pick(&[30, 300, 3_000_000]);
        let spoiled = if random.one_in(12) {
            random.between(1, 2)
        } else {
            0
        };
        let positions: Vec<f32> = (0..3 * vertices + spoiled)
            .map(|_| coordinate(random, ends))
            .collect();
        let triangles = random.between(0, 12);
        let spoiled = if random.one_in(12) {
            random.between(1, 2)
        } else {
            0
        };
        let beyond = u64::from(random.one_in(8));
        let indices: Vec<u32> = (0..3 * triangles + spoiled)
            .map(|_| {
                if random.one_in(500) {
                    u32::MAX
                } else {
                    random.between(0, (vertices + beyond).max(1) - 1) as u32
                }
            })
            .collect();
        tally.compare(&positions, &indices);
    }
    tally
}

/// Each end at each place of an otherwise good list, used by a triangle or not.
fn each_end() -> Tally {
    let mut tally = Tally::default();
    for end in ENDS {
        for at in 0..12 {
            let mut positions = [
                0.5, 1.5, 2.5, 100.25, 7.75, 3.0, 1.0, 127.0, 64.0, 9.0, 10.0, 11.0,
            ];
            positions[at] = f32::from_bits(end);
            for indices in [
                &[][..],
                &[0, 1, 2][..],
                &[3, 2, 1][..],
                &[0, 1, 4][..],
                &[0, 1][..],
            ] {
                tally.compare(&positions, indices);
            }
        }
    }
    tally
}

/// As many triangles as are permitted, each of the largest determinant, both ways round; and one more.
fn largest(faults: &mut u64) -> Tally {
    let mut tally = Tally::default();
    let corners = [128.0, 128.0, 0.0, 0.0, 128.0, 128.0, 128.0, 0.0, 128.0];
    for (turn, sign) in [([0, 1, 2], 1), ([0, 2, 1], -1)] {
        for triangles in [1, 16_383, 16_384, 16_385, 16_400] {
            let volume = tally.compare(&corners, &turn.repeat(triangles));
            let wanted = (triangles <= 16_384).then(|| (sign * (triangles as i64)) << 46);
            *faults += u64::from(volume != wanted);
        }
    }
    tally
}

/// A mesh of the library, without the max plane.
fn mesh(sdf: &[f32], dims: [u32; 3], min: [u32; 3], max: [u32; 3]) -> (Vec<f32>, Vec<u32>) {
    let mut buffer = SurfaceNetsBuffer::default();
    bed::surface_nets(sdf, dims, min, max, bed::MaxPlane::NONE, &mut buffer).expect("a good call");
    (buffer.positions.concat(), buffer.indices)
}

/// Meshes of the library, closed and not: compared, turned round, moved by whole steps, and cut in two.
fn meshes(random: &mut Random, faults: &mut u64) -> Tally {
    let mut tally = Tally::default();
    let (mut closed, mut cuts) = (0, 0);
    for round in 0..6_000 {
        let dims = [0; 3].map(|_| random.between(4, 9) as u32);
        let inside = random.between(2, 6);
        let high = dims.map(|n| n - 1);
        let sdf: Vec<f32> = (0..dims[0] * dims[1] * dims[2])
            .map(|i| {
                let p = [i % dims[0], i / dims[0] % dims[1], i / (dims[0] * dims[1])];
                let inner = round % 3 == 0 || (0..3).all(|a| p[a] >= 1 && p[a] + 2 <= high[a]);
                let size = random.pick(&[1.0, 1.0, 0.5, 3.0, 512.0, 0.001]);
                if inner && random.one_in(inside) {
                    -size
                } else {
                    size
                }
            })
            .collect();
        let (positions, indices) = mesh(&sdf, dims, [0; 3], high);
        let whole = tally
            .compare(&positions, &indices)
            .expect("a mesh within the bounds");
        let turned: Vec<u32> = indices.chunks(3).flat_map(|t| [t[0], t[2], t[1]]).collect();
        *faults += u64::from(tally.compare(&positions, &turned) != Some(-whole));
        if bed::is_enclosed(&sdf, dims, [0; 3], high) == Ok(true) {
            // every vertex on its step, and the same whole steps more on each axis
            closed += 1;
            let moved = |shift: [u64; 3]| -> Vec<f32> {
                let step = |(at, &x): (usize, &f32)| {
                    reading::steps_of(x).unwrap() as f32 + shift[at % 3] as f32
                };
                positions
                    .iter()
                    .enumerate()
                    .map(step)
                    .map(|n| n / 256.0)
                    .collect()
            };
            let shift = [0; 3].map(|_| random.between(0, 25_000));
            *faults += u64::from(tally.compare(&moved([0; 3]), &indices) != Some(whole));
            *faults += u64::from(tally.compare(&moved(shift), &indices) != Some(whole));
        }
        let axis = random.between(0, 2) as usize;
        let k = random.between(0, u64::from(high[axis]) - 1) as u32;
        let (mut top, mut bottom) = (high, [0; 3]);
        top[axis] = k + 1;
        bottom[axis] = k;
        let parts = [
            mesh(&sdf, dims, [0; 3], top),
            mesh(&sdf, dims, bottom, high),
        ];
        let sum: Option<i64> = parts.iter().map(|(p, i)| tally.compare(p, i)).sum();
        cuts += 1;
        *faults += u64::from(sum != Some(whole));
    }
    println!("meshes cut in two, the parts adding up to the whole: {cuts}; closed meshes, moved: {closed}");
    tally
}

fn main() -> ExitCode {
    println!("seed {SEED:#x}");
    let mut random = Random::new(SEED);
    let mut faults = 0;
    let mut all = Tally::default();
    for (name, tally) in [
        ("random lists", random_lists(&mut random)),
        ("each end at each place", each_end()),
        ("the largest determinants", largest(&mut faults)),
        ("meshes of the library", meshes(&mut random, &mut faults)),
    ] {
        tally.print(name);
        all.add(&tally);
    }
    all.print("all lists");
    println!("laws that failed: {faults}");
    let lacking = ANSWERS.iter().any(|a| !all.answers.contains_key(a));
    if all.differing == 0 && faults == 0 && all.lists() >= ENOUGH && !lacking {
        println!("ALL AGREE");
        ExitCode::SUCCESS
    } else {
        println!("NOT ALL AGREE");
        ExitCode::FAILURE
    }
}
