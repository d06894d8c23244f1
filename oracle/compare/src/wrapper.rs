//! The Rust wrapper against the original: one buffer on each side, used again for every call.
//!
//! Both buffers begin empty and are never cleared, so that a map's old entries outside the box, kept from
//! grids of other dimensions, must stay equal too.

use crate::calls::accepted;
use crate::fields::FIELDS;
use crate::random::Random;
use crate::tally::Tally;
use bed::{surface_nets, MaxPlane, SurfaceNetsBuffer};
use oracle::call;
use oracle::expected::room_needed;
use oracle::model::verdict;
use oracle::published::Mesh;

const CALLS: u32 = 20_000;

pub fn run(tally: &mut Tally, random: &mut Random) {
    let mut mesh = Mesh::default();
    let mut buffer = SurfaceNetsBuffer::default();
    for _ in 0..CALLS {
        let field = random.pick(&FIELDS);
        let call = accepted(random, &field, 6);
        let view = call.view();
        mesh.run(&view);
        let answered = surface_nets(
            &call.grid,
            call.dims,
            call.min,
            call.max,
            wrapped(call.max_plane),
            &mut buffer,
        );
        let room = room_needed(&view).expect("the call is accepted with enough room");
        tally.count(&view, &verdict(&view, &room), &mesh);
        if answered.is_err() || !same(&buffer, &mesh) {
            tally.differing += 1;
        }
    }
}

/// The flags as the wrapper takes them.
pub fn wrapped(call::MaxPlane([x, y, z]): call::MaxPlane) -> MaxPlane {
    MaxPlane { x, y, z }
}

fn same(buffer: &SurfaceNetsBuffer, mesh: &Mesh) -> bool {
    bits(&buffer.positions) == bits(&mesh.positions)
        && bits(&buffer.normals) == bits(&mesh.normals)
        && buffer.indices == mesh.indices
        && buffer.surface_points == mesh.surface_points
        && buffer.surface_strides == mesh.surface_strides
        && buffer.crossings == mesh.crossings
        && buffer.stride_to_index == mesh.stride_to_index
}

fn bits(list: &[[f32; 3]]) -> Vec<[u32; 3]> {
    list.iter()
        .map(|numbers| numbers.map(f32::to_bits))
        .collect()
}
