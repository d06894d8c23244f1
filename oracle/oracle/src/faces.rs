//! A plain model of the faces: the index list of a call with a max plane for each axis apart.
//!
//! The Rust has all three max planes or none. The vertices do not depend on them, so for one or two the list
//! is made here from the Rust's vertices: document 01's section on faces, with request 4's flag for the axis
//! of the edge. Vertices are found by their cells and not in a map.

use crate::call::Call;
use crate::model::{changes_sign, negative, owned};

/// The vertices that the faces stand on: the cell and the position of each, in vertex order.
#[derive(Clone, Copy)]
pub struct Vertices<'a> {
    pub cells: &'a [[u32; 3]],
    pub positions: &'a [[f32; 3]],
}

impl Vertices<'_> {
    /// The number of the cell's vertex. Cells stand in document 01's order: z outermost, x innermost.
    fn number(&self, cell: [u32; 3]) -> u32 {
        let outermost_first = |[x, y, z]: [u32; 3]| [z, y, x];
        let place = self
            .cells
            .binary_search_by_key(&outermost_first(cell), |&c| outermost_first(c));
        place.expect("a cell at a crossing edge has a vertex") as u32
    }

    fn squared_distance(&self, a: u32, b: u32) -> f32 {
        let [a, b] = [a, b].map(|v| self.positions[v as usize]);
        let [dx, dy, dz] = [a[0] - b[0], a[1] - b[1], a[2] - b[2]];
        (dx * dx + dy * dy) + dz * dz
    }
}

/// The indices of an accepted call: surface cells in vertex order, at each the x, the y and the z edge.
pub fn index_list(call: &Call, vertices: Vertices) -> Vec<u32> {
    let mut indices = Vec::new();
    for &p1 in vertices.cells {
        for axis in 0..3 {
            if owned(call, axis, p1) && changes_sign(call, axis, p1) {
                indices.extend(face(call, vertices, axis, p1));
            }
        }
    }
    indices
}

/// The face of the edge along `axis` from p1. For the x edge (B, C) are (y, z); for y, (z, x); for z, (x, y).
fn face(call: &Call, vertices: Vertices, axis: usize, p1: [u32; 3]) -> [u32; 6] {
    let down = |axis: usize, mut cell: [u32; 3]| {
        cell[axis] -= 1;
        cell
    };
    let (b, c) = ((axis + 1) % 3, (axis + 2) % 3);
    let [v1, v2, v3, v4] =
        [p1, down(b, p1), down(c, p1), down(b, down(c, p1))].map(|cell| vertices.number(cell));
    let shorter = vertices.squared_distance(v1, v4) < vertices.squared_distance(v2, v3);
    match (shorter, negative(call, p1)) {
        (true, true) => [v1, v2, v4, v1, v4, v3],
        (true, false) => [v1, v4, v2, v1, v3, v4],
        (false, true) => [v2, v4, v3, v2, v3, v1],
        (false, false) => [v2, v3, v4, v2, v1, v3],
    }
}
