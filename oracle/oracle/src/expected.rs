//! What a call must leave behind: the verdict and the whole contents of the seven lent buffers.
//!
//! Buffers are held as their 32-bit patterns, so that an equal answer means equal bits; of the crossings, which
//! are bytes, each word is a byte's number.

use crate::call::{Call, Lent, Room};
use crate::model::{refused_before_counting, verdict, Verdict};
use crate::published::Mesh;

/// The contents of the lent buffers, as bit patterns.
pub type Contents = Lent<Vec<u32>>;

impl Contents {
    /// The lengths of the buffers.
    pub fn room(&self) -> Room {
        self.by_ref().each(Vec::len)
    }

    /// The buffers, for a call to write to.
    pub fn lend(&mut self) -> Lent<&mut [u32]> {
        self.by_mut().each(Vec::as_mut_slice)
    }
}

/// The room that a call needs to be accepted, where only its room could refuse it.
pub fn room_needed(call: &Call) -> Option<Room> {
    let grid = call.grid.len();
    if refused_before_counting(call, grid).is_some() {
        return None;
    }
    let unlimited = Room::exact(u32::MAX as u64, u64::MAX, grid);
    let counts = verdict(call, &unlimited);
    Some(Room::exact(counts.vertices, counts.indices, grid))
}

/// The verdict on a call, and what it makes of the lent contents.
///
/// A refused call leaves them as they are. An accepted one leaves what the Rust wrote at the front of
/// each list, with the model's faces for one or two max planes, what was there behind it, and over the grid's
/// length the Rust's map with the points of the box that are no cell cleared. `mesh` is working memory, and holds that answer afterwards if the call was
/// accepted.
pub fn outcome(call: &Call, lent: &mut Contents, mesh: &mut Mesh) -> Verdict {
    let verdict = verdict(call, &lent.room());
    if verdict.answer != 0 {
        return verdict;
    }
    let grid = call.grid.len();
    mesh.stride_to_index.clear();
    mesh.stride_to_index.extend_from_slice(&lent.map[..grid]);
    mesh.run(call);
    let counted = (mesh.positions.len() as u64, mesh.indices.len() as u64);
    assert_eq!(
        counted,
        (verdict.vertices, verdict.indices),
        "the model and the Rust count differently"
    );
    write_mesh(lent, mesh);
    verdict
}

/// Puts the Rust's numbers at the front of each buffer and keeps the rest.
pub fn write_mesh(lent: &mut Contents, mesh: &Mesh) {
    write_floats(&mut lent.positions, &mesh.positions);
    write_floats(&mut lent.normals, &mesh.normals);
    write(
        &mut lent.cells,
        mesh.surface_points.iter().flatten().copied(),
    );
    write(&mut lent.strides, mesh.surface_strides.iter().copied());
    write(
        &mut lent.crossings,
        mesh.crossings.iter().map(|&n| n.into()),
    );
    write(&mut lent.map, mesh.stride_to_index.iter().copied());
    write(&mut lent.indices, mesh.indices.iter().copied());
}

fn write_floats(lent: &mut [u32], written: &[[f32; 3]]) {
    write(
        lent,
        written.iter().flatten().map(|number| number.to_bits()),
    );
}

fn write(lent: &mut [u32], written: impl Iterator<Item = u32>) {
    for (place, number) in lent.iter_mut().zip(written) {
        *place = number;
    }
}
