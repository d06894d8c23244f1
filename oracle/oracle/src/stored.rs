//! Stored answers: calls and what they must leave behind, as a file of little-endian 32-bit words.
//!
//! The form is meant for a reader without a heap: every length stands before what it counts, and the
//! buffers' old contents need no storage, since a rule makes them. `README.md` beside the stored files
//! gives the layout.

use crate::call::{Call, Lent, MaxPlane, Room};
use crate::expected::{outcome, Contents};
use crate::model::Verdict;
use crate::published::Mesh;

/// A call with its old contents made by the rule, and what it must leave behind in document 01's six buffers. The
/// crossings are not stored: as many are lent as strides, so that no stored answer is another for them.
#[derive(Clone, PartialEq)]
pub struct StoredCall {
    pub grid: Vec<u32>,
    pub dims: [u32; 3],
    pub min: [u32; 3],
    pub max: [u32; 3],
    pub max_plane: MaxPlane,
    pub verdict: Verdict,
    pub after: [Vec<u32>; 6],
}

/// What each buffer holds before every stored call: element j of a float buffer is 1000 + j or
/// 2000 + j, and of a whole-number buffer j above a mark of its own; of the crossings the byte of 100 + j.
pub fn old_contents(room: &Room) -> Contents {
    let floats = |first: f32, length: usize| -> Vec<u32> {
        (0..length).map(|j| (first + j as f32).to_bits()).collect()
    };
    let words = |first: u32, length: usize| (first..).take(length).collect::<Vec<u32>>();
    Lent {
        positions: floats(1000.0, room.positions),
        normals: floats(2000.0, room.normals),
        cells: words(0x5100_0000, room.cells),
        strides: words(0x5200_0000, room.strides),
        crossings: (100u8..=255)
            .cycle()
            .map(u32::from)
            .take(room.crossings)
            .collect(),
        map: words(0x5300_0000, room.map),
        indices: words(0x5400_0000, room.indices),
    }
}

impl StoredCall {
    /// Asks the oracle.
    pub fn ask(call: &Call, room: &Room) -> Self {
        let mut contents = old_contents(room);
        let verdict = outcome(call, &mut contents, &mut Mesh::default());
        Self {
            grid: call.grid.iter().map(|&d| stored_bits(d)).collect(),
            dims: call.dims,
            min: call.min,
            max: call.max,
            max_plane: call.max_plane,
            verdict,
            after: stored(contents),
        }
    }

    /// The lengths of the lent buffers.
    pub fn room(&self) -> Room {
        let [positions, normals, cells, strides, map, indices] =
            std::array::from_fn(|i| self.after[i].len());
        Room::from_order([positions, normals, cells, strides, strides, map, indices])
    }

    fn write(&self, words: &mut Vec<u32>) {
        for corner in [self.dims, self.min, self.max] {
            words.extend(corner);
        }
        words.push(self.max_plane.word());
        words.push(length_word(&self.grid));
        words.extend(&self.grid);
        words.extend(self.after.iter().map(|buffer| length_word(buffer)));
        words.push(self.verdict.answer);
        words.push(count_word(self.verdict.vertices));
        words.push(count_word(self.verdict.indices));
        words.extend(self.after.iter().flatten());
    }

    fn read(words: &mut impl Iterator<Item = u32>) -> Option<Self> {
        let dims = three(words)?;
        let min = three(words)?;
        let max = three(words)?;
        let max_plane = MaxPlane::of_word(words.next()?)?;
        let length = words.next()?;
        let grid = run(words, length)?;
        let lengths = run(words, 6)?;
        let [answer, vertices, indices] = three(words)?;
        let mut after: [Vec<u32>; 6] = Default::default();
        for (buffer, length) in after.iter_mut().zip(lengths) {
            *buffer = run(words, length)?;
        }
        Some(Self {
            grid,
            dims,
            min,
            max,
            max_plane,
            verdict: Verdict {
                answer,
                vertices: vertices as u64,
                indices: indices as u64,
            },
            after,
        })
    }
}

/// The buffers that are stored.
pub fn stored<T>(lent: Lent<T>) -> [T; 6] {
    let [positions, normals, cells, strides, _, map, indices] = lent.in_order();
    [positions, normals, cells, strides, map, indices]
}

/// The whole file: the count of calls, then each.
pub fn to_bytes(calls: &[StoredCall]) -> Vec<u8> {
    let mut words = vec![calls.len() as u32];
    calls.iter().for_each(|call| call.write(&mut words));
    words.iter().flat_map(|word| word.to_le_bytes()).collect()
}

/// The calls of a file, or nothing where it is cut short, has words left over or a max plane above 7.
pub fn from_bytes(bytes: &[u8]) -> Option<Vec<StoredCall>> {
    let mut words = bytes
        .chunks_exact(4)
        .map(|w| u32::from_le_bytes([w[0], w[1], w[2], w[3]]));
    let count = words.next()?;
    let calls: Option<Vec<_>> = (0..count).map(|_| StoredCall::read(&mut words)).collect();
    calls.filter(|_| words.next().is_none() && bytes.len().is_multiple_of(4))
}

/// Every not-a-number is stored as one and the same.
fn stored_bits(distance: f32) -> u32 {
    if distance.is_nan() {
        0x7FC0_0000
    } else {
        distance.to_bits()
    }
}

fn length_word(list: &[u32]) -> u32 {
    count_word(list.len() as u64)
}

fn count_word(count: u64) -> u32 {
    u32::try_from(count).expect("stored calls are small")
}

fn run(words: &mut impl Iterator<Item = u32>, length: u32) -> Option<Vec<u32>> {
    (0..length).map(|_| words.next()).collect()
}

fn three(words: &mut impl Iterator<Item = u32>) -> Option<[u32; 3]> {
    Some([words.next()?, words.next()?, words.next()?])
}
