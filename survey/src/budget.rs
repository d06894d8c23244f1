//! How much memory a work takes, so that `--memory` bounds it: the grid, and what each worker has of its own, its map of the whole
//! grid among it.

use crate::blocks::cores;
use crate::numbers::{Header, Numbers};
use bed::{Block, Counts};

/// What the command takes whatever the grid: its code, its threads, what is read at a time.
const OWN: u128 = 4 << 20;

/// Bytes of a vertex in the lists of a call: position, normal, cell, stride, crossings.
const VERTEX: u128 = 12 + 12 + 12 + 4 + 1;
const INDEX: u128 = 4;
/// Bytes of a record of a mesh file.
const RECORD: u128 = 32;
/// Bytes of a vertex and a triangle as PLY, and its header.
const PLY: [u128; 3] = [25, 13, 512];

/// Bytes for each point of a layer, where a block is taken layer by layer: what the library keeps, the layer as bytes and as
/// floats, and the most that a layer brings out, with a quarter more.
const LAYERED: u128 = 28 + 8 + (VERTEX + 18 * INDEX) * 5 / 4;

/// What is in memory of a grid.
#[derive(Clone, Copy)]
pub struct InMemory {
    /// How many numbers the file holds.
    pub count: u128,
    pub numbers: Numbers,
    /// Whether it is read as floats.
    pub floats: bool,
    /// Whether a PLY is made too.
    pub viewed: bool,
}

impl InMemory {
    /// The bytes of the grid alone.
    pub fn grid(&self) -> u128 {
        let each = if self.floats { 4 } else { self.numbers.bytes() };
        self.count * each as u128
    }

    /// What a worker takes for a block with at most so many vertices and indices: a map, the lists, which may grow to twice
    /// that, and the file.
    fn worker(&self, most: Counts) -> u128 {
        let (vertices, indices) = (u128::from(most.vertices), u128::from(most.indices));
        let lists = 2 * (VERTEX * vertices + INDEX * indices);
        let file = RECORD * (vertices + indices / 3 + 1);
        let [vertex, triangle, header] = PLY;
        let viewed = vertex * vertices + triangle * (indices / 3) + header;
        4 * self.count + lists + file + if self.viewed { viewed } else { 0 }
    }

    /// Whether the grid and one map fit, before anything is known of the mesh.
    pub fn fits(&self, memory: u128) -> bool {
        OWN + self.grid() + self.worker(Counts::default()) <= memory
    }

    /// How many workers fit beside the grid, none where not one does, where no block has more vertices and indices.
    pub fn workers(&self, memory: u128, most: Counts) -> usize {
        let left = memory.saturating_sub(OWN + self.grid());
        let fit = left / self.worker(most);
        cores().min(usize::try_from(fit).unwrap_or(usize::MAX))
    }
}

/// The most vertices and indices of a block of a plan, by what the whole has. A block that owns an edge lies in the whole, and has
/// no more than it. One that owns none, which is a single cell thick or flat, may stand anywhere: it has no triangle, and a vertex
/// a cell at most.
pub fn most(whole: Counts, blocks: &[Block]) -> Counts {
    let thin = blocks.iter().filter_map(|block| {
        let cells: [u64; 3] =
            std::array::from_fn(|axis| u64::from(block.max[axis].saturating_sub(block.min[axis])));
        let thin = cells.iter().any(|&count| count <= 1);
        thin.then(|| {
            cells
                .iter()
                .fold(1, |product: u64, &count| product.saturating_mul(count))
        })
    });
    Counts {
        vertices: thin.max().unwrap_or(0).max(whole.vertices),
        indices: whole.indices,
    }
}

/// How many blocks are taken layer by layer at a time: one at least.
pub fn layered_workers(memory: u128, header: &Header) -> usize {
    let fit = memory.saturating_sub(OWN) / (LAYERED * header.plane()).max(1);
    cores()
        .min(usize::try_from(fit).unwrap_or(usize::MAX))
        .max(1)
}

#[cfg(test)]
mod tests {
    use super::*;

    #[test]
    fn every_worker_has_a_map() {
        let grid = InMemory {
            count: 1 << 20,
            numbers: Numbers::Float32,
            floats: false,
            viewed: false,
        };
        let none = Counts::default();
        let mib = 1 << 20;
        assert!(!grid.fits(12 * mib) && grid.fits(13 * mib));
        assert_eq!(grid.workers(12 * mib, none), 0);
        assert_eq!(grid.workers(13 * mib, none), 1);
        assert_eq!(grid.workers(1 << 60, none), cores());
        let mesh = Counts {
            vertices: 1 << 20,
            indices: 6 << 20,
        };
        assert_eq!(grid.workers(100 * mib, mesh), 0);
        let short = InMemory {
            numbers: Numbers::Int16,
            ..grid
        };
        assert!(
            short.fits(11 * mib)
                && !InMemory {
                    floats: true,
                    ..short
                }
                .fits(11 * mib)
        );
    }
}
