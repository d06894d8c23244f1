//! Compares the proved closing calls with a plain second reading, and tries on the library's own meshes what is proved
//! of closed grids: enclosed, no hole, and the border's vertices on the outermost points, bit for bit.
//!
//! The grids are made with a fixed seed, so that two runs compare the same ones. Exit status 0: all agreed, enough were
//! compared and each answer came up. Exit status 1: not so.

#[path = "../../compare/src/random.rs"]
#[allow(dead_code)]
mod random;
mod reading;

use bed::{MaxPlane, SurfaceNetsBuffer};
use random::Random;
use std::collections::BTreeMap;
use std::process::ExitCode;

const SEED: u64 = 0xBED0_0071;
/// What a run must reach: grids, layers and meshes.
const GRIDS: u64 = 60_000;
const LAYERS: u64 = 120_000;
const MESHES: u64 = 6_000;
const ANSWERS: [u32; 7] = [0, 1, 3, 71, 72, 73, 74];

/// Walls at the ends, by their bits: zeros, the least floats, 2^124 with its neighbours, what is not finite, and plain ones.
const WALLS: [u32; 14] = [
    0x0000_0000,
    0x8000_0000,
    0x0000_0001,
    0x8000_0001,
    0x7D7F_FFFF,
    0x7D80_0000,
    0x7D80_0001,
    0x7F7F_FFFF,
    0x7F80_0000,
    0xFF80_0000,
    0x7FC0_0000,
    0xBF80_0000,
    0x3F80_0000,
    0x4B00_0000,
];

#[derive(Default)]
struct Tally {
    answers: BTreeMap<u32, u64>,
    grids: u64,
    layers: u64,
    meshes: u64,
    border_vertices: u64,
    differing: u64,
}

/// Bits, so that zeros of both signs and what is not a number are told apart.
fn bits(list: &[f32]) -> Vec<u32> {
    list.iter().map(|x| x.to_bits()).collect()
}

fn number(said: Result<(), bed::CloseRefusal>) -> u32 {
    said.map_or_else(|refusal| refusal.number(), |()| 0)
}

impl Tally {
    fn same(&mut self, answer: u32, left: &[f32], expected: (u32, Vec<f32>)) {
        *self.answers.entry(answer).or_default() += 1;
        self.differing += u64::from(answer != expected.0 || bits(left) != bits(&expected.1));
    }

    /// One grid, at each width that holds its numbers.
    fn grid(&mut self, sdf: &[f32], dims: [u32; 3], wall: f32, room: &[f32]) {
        let mut left = room.to_vec();
        let answer = number(bed::close_lent(sdf, dims, wall, &mut left));
        self.same(answer, &left, reading::close(sdf, dims, wall, room));
        self.grids += 1;
        if let Some(sixteens) = whole::<i16>(sdf) {
            let mut left = room.to_vec();
            let answer = number(bed::close_lent(&sixteens, dims, wall, &mut left));
            self.same(answer, &left, reading::close(sdf, dims, wall, room));
        }
        if let Some(eights) = whole::<i8>(sdf) {
            let mut left = room.to_vec();
            let answer = number(bed::close_lent(&eights, dims, wall, &mut left));
            self.same(answer, &left, reading::close(sdf, dims, wall, room));
        }
    }

    fn layer(&mut self, layer: &[f32], dims: [u32; 3], z: u32, wall: f32, room: &[f32]) {
        let expected = reading::close_layer(layer, dims, z, wall, room);
        let mut left = room.to_vec();
        let answer = number(bed::close_layer(layer, dims, z, wall, &mut left));
        self.same(answer, &left, expected.clone());
        self.layers += 1;
        if let Some(sixteens) = whole::<i16>(layer) {
            let mut left = room.to_vec();
            let answer = number(bed::close_layer(&sixteens, dims, z, wall, &mut left));
            self.same(answer, &left, expected.clone());
        }
        if let Some(eights) = whole::<i8>(layer) {
            let mut left = room.to_vec();
            let answer = number(bed::close_layer(&eights, dims, z, wall, &mut left));
            self.same(answer, &left, expected);
        }
    }

    fn depth(&mut self, so_far: f32, sdf: &[f32]) {
        let said = bed::deepest(so_far, sdf);
        let expected = reading::deepest(so_far, sdf);
        self.differing += u64::from(said.to_bits() != expected.to_bits() && !said.is_nan());
        self.differing += u64::from(said.is_nan() != expected.is_nan());
        self.differing +=
            u64::from(bed::wall_for(said).to_bits() != reading::wall_for(expected).to_bits());
        if let Some(sixteens) = whole::<i16>(sdf) {
            let same = bed::deepest(so_far, &sixteens).to_bits() == said.to_bits();
            self.differing += u64::from(!same && !said.is_nan());
        }
        if let Some(eights) = whole::<i8>(sdf) {
            let same = bed::deepest(so_far, &eights).to_bits() == said.to_bits();
            self.differing += u64::from(!same && !said.is_nan());
        }
    }

    /// A closed grid meshed: enclosed, each side as often as its reverse, and the border's vertices on the outermost points.
    fn mesh(&mut self, sdf: &[f32], dims: [u32; 3]) {
        let wall = bed::wall_for(bed::deepest(0.0, sdf));
        let closed_dims = dims.map(|n| n + 3);
        let mut closed = vec![0.0; closed_dims.iter().map(|&n| n as usize).product()];
        let max = closed_dims.map(|n| n - 1);
        let mut mesh = SurfaceNetsBuffer::default();
        let good = bed::close_lent(sdf, dims, wall, &mut closed).is_ok()
            && bed::is_enclosed(&closed, closed_dims, [0; 3], max) == Ok(true)
            && bed::surface_nets(&closed, closed_dims, [0; 3], max, MaxPlane::NONE, &mut mesh)
                .is_ok();
        self.differing += u64::from(!good);
        let mut sides: BTreeMap<(u32, u32), i64> = BTreeMap::new();
        for t in mesh.indices.chunks(3) {
            for (from, to) in [(t[0], t[1]), (t[1], t[2]), (t[2], t[0])] {
                *sides.entry((from.min(to), from.max(to))).or_default() +=
                    if from < to { 1 } else { -1 };
            }
        }
        self.differing += sides.values().filter(|&&n| n != 0).count() as u64;
        for (position, cell) in mesh.positions.iter().zip(&mesh.surface_points) {
            for axis in 0..3 {
                let stands = match cell[axis] {
                    0 => 1.0,
                    n if n == dims[axis] => n as f32,
                    n if n > dims[axis] => f32::NAN,
                    _ => continue,
                };
                self.border_vertices += 1;
                self.differing += u64::from(position[axis].to_bits() != stands.to_bits());
            }
        }
        self.meshes += 1;
    }
}

/// The numbers as whole ones, where all of them are and fit.
fn whole<T: TryFrom<i32>>(list: &[f32]) -> Option<Vec<T>> {
    list.iter()
        .map(|&x| {
            let n = x as i32;
            (n as f32).to_bits().eq(&x.to_bits()).then_some(n)?;
            T::try_from(n).ok()
        })
        .collect()
}

/// A distance: small whole numbers for some grids, and for others anything that a float can be.
fn distance(random: &mut Random, kind: u64) -> f32 {
    match kind {
        0 => random.between(0, 255) as f32 - 128.0,
        1 => random.between(0, 65_535) as f32 - 32_768.0,
        2 => f32::from_bits(random.word()),
        _ => random.signed_unit() * 2f32.powi(random.between(0, 80) as i32 - 40),
    }
}

fn compare(tally: &mut Tally, random: &mut Random) {
    let least = if random.one_in(40) { 0 } else { 1 };
    let dims = [0; 3].map(|_| random.coordinate(least, 5));
    let points: usize = dims.iter().map(|&n| n as usize).product();
    let kind = random.between(0, 3);
    let length = if random.one_in(12) {
        points + random.between(0, 2) as usize - usize::from(points > 0)
    } else {
        points
    };
    let sdf: Vec<f32> = (0..length).map(|_| distance(random, kind)).collect();
    let wall = if random.one_in(3) {
        f32::from_bits(random.pick(&WALLS))
    } else {
        2f32.powi(random.between(0, 240) as i32 - 120)
    };
    let closed: usize = dims.iter().map(|&n| n as usize + 3).product();
    let room = closed + random.between(0, 3) as usize - usize::from(random.one_in(8));
    let old: Vec<f32> = (0..room).map(|i| i as f32 + 0.25).collect();
    tally.grid(&sdf, dims, wall, &old);
    let z = random.coordinate(0, dims[2] + 3);
    let plane = dims[0] as usize * dims[1] as usize;
    let wanted = if z == 0 || z > dims[2] { 0 } else { plane };
    for length in [wanted, if random.one_in(6) { plane } else { wanted }] {
        let layer: Vec<f32> = (0..length).map(|_| distance(random, kind)).collect();
        let flat = (dims[0] as usize + 3) * (dims[1] as usize + 3);
        let short = usize::from(random.one_in(8));
        tally.layer(&layer, dims, z, wall, &old[..flat.min(room) - short]);
    }
    tally.depth(distance(random, kind).abs(), &sdf);
    tally.depth(0.0, &sdf);
}

/// Grids that are too large to close, whose distances are one lent list.
fn large(tally: &mut Tally) {
    let long = vec![1.0; 16_777_217];
    for n in [16_777_214u32, 16_777_215, 16_777_217] {
        tally.grid(&long[..n as usize], [n, 1, 1], 2.0, &[0.5]);
        tally.layer(&[], [n, 1, 1], 0, 2.0, &[0.5]);
    }
    tally.grid(&[], [16_777_218, 1, 1], 2.0, &[0.5]);
    tally.grid(&long[..1 << 20], [1 << 10, 1 << 10, 1], 2.0, &[0.5]);
}

fn main() -> ExitCode {
    let mut random = Random::new(SEED);
    let mut tally = Tally::default();
    while tally.grids < GRIDS || tally.layers < LAYERS {
        compare(&mut tally, &mut random);
    }
    large(&mut tally);
    while tally.meshes < MESHES {
        let dims = [0; 3].map(|_| random.coordinate(1, 5));
        let points = dims.iter().map(|&n| n as usize).product();
        let kind = random.pick(&[0, 3, 4]);
        let sdf: Vec<f32> = (0..points)
            .map(|_| match kind {
                // a full tank
                4 => -distance(&mut random, 3).abs() - f32::MIN_POSITIVE,
                _ => distance(&mut random, kind),
            })
            .collect();
        tally.mesh(&sdf, dims);
    }
    println!(
        "grids {} layers {} meshes {} border coordinates {} answers {:?} differing {}",
        tally.grids,
        tally.layers,
        tally.meshes,
        tally.border_vertices,
        tally.answers,
        tally.differing
    );
    let each = ANSWERS
        .iter()
        .all(|answer| tally.answers.contains_key(answer));
    if tally.differing == 0 && each && tally.border_vertices > 10 * MESHES {
        println!("ALL AGREE");
        return ExitCode::SUCCESS;
    }
    println!("NOT ALL AGREE");
    ExitCode::FAILURE
}
