//! Random meshes, and files that are spoiled in one way or another.

use crate::random::Random;
use crate::reading::{record, words, Mesh};

/// Words at which something changes: small numbers, the kinds, signs, infinities and their neighbours.
const EDGES: [u32; 16] = [
    0,
    1,
    2,
    3,
    4,
    255,
    256,
    0x0100_0000,
    0x7F7F_FFFF,
    0x7F80_0000,
    0x7F80_0001,
    0x7FC0_0000,
    0x8000_0000,
    0xFF80_0000,
    0xFFC0_0000,
    0xFFFF_FFFF,
];

/// Finite floats at the ends of their ranges, zeros of both signs among them.
const FINITE_EDGES: [u32; 8] = [
    0,
    0x8000_0000,
    1,
    0x807F_FFFF,
    0x0080_0000,
    0x3F80_0000,
    0x7F7F_FFFF,
    0xFF7F_FFFF,
];

pub fn place(random: &mut Random, length: usize) -> usize {
    random.between(0, length as u64 - 1) as usize
}

pub fn word(random: &mut Random) -> u32 {
    if random.one_in(2) {
        random.pick(&EDGES)
    } else {
        random.word()
    }
}

fn finite(random: &mut Random) -> u32 {
    if random.one_in(3) {
        return random.pick(&FINITE_EDGES);
    }
    loop {
        let bits = random.word();
        if f32::from_bits(bits).is_finite() {
            return bits;
        }
    }
}

/// A mesh that can be written, with at most so many vertices and triangles.
pub fn mesh(random: &mut Random, most: u64) -> Mesh {
    let vertices = random.between(0, most);
    let triangles = if vertices == 0 {
        0
    } else {
        random.between(0, most)
    };
    let mut floats = || (0..3 * vertices).map(|_| finite(random)).collect();
    Mesh {
        positions: floats(),
        normals: floats(),
        indices: (0..3 * triangles)
            .map(|_| random.between(0, vertices - 1) as u32)
            .collect(),
    }
}

/// The mesh with one list longer, or one number changed.
pub fn spoiled(random: &mut Random, mesh: &Mesh) -> Mesh {
    let mut mesh = mesh.clone();
    let number = word(random);
    match random.between(0, 5) {
        0 => mesh.positions.push(number),
        1 => mesh.normals.extend([number; 3]),
        2 => mesh.indices.extend([number; 2]),
        3 => change(random, &mut mesh.positions, number),
        4 => change(random, &mut mesh.normals, number),
        _ => change(random, &mut mesh.indices, number),
    }
    mesh
}

fn change(random: &mut Random, list: &mut [u32], number: u32) {
    if !list.is_empty() {
        let at = place(random, list.len());
        list[at] = number;
    }
}

/// The file with one or two words of a record changed and its sum set right, so that the faults behind
/// a bad sum are reached.
pub fn resealed(random: &mut Random, file: &[u8]) -> Vec<u8> {
    let at = 32 * place(random, file.len() / 32);
    let mut changed = [0; 7];
    changed.copy_from_slice(&words(&file[at..at + 28]));
    for _ in 0..random.between(1, 2) {
        changed[place(random, 7)] = word(random);
    }
    [&file[..at], &record(changed), &file[at + 32..]].concat()
}

/// The file with two records exchanged, one doubled or one left out.
pub fn exchanged(random: &mut Random, file: &[u8]) -> Vec<u8> {
    let mut records: Vec<&[u8]> = file.chunks(32).collect();
    let (a, b) = (place(random, records.len()), place(random, records.len()));
    match random.between(0, 2) {
        0 => records.swap(a, b),
        1 => records.insert(b, records[a]),
        _ => {
            records.remove(a);
        }
    }
    records.concat()
}

pub fn bytes(random: &mut Random, length: usize) -> Vec<u8> {
    (0..length).map(|_| random.word() as u8).collect()
}
