//! A plain model of the refusals: the answer number, V and I of any call, with a max plane for each axis apart.
//!
//! Beside it the points whose map entries document 02's request 7 clears.
//!
//! Written from document 01's table and its sections on cells and faces, by other code than the
//! Rust's: faces are counted over the edges of the box and not over its surface cells, and every
//! product is made in 128 bits, where nothing can wrap.

use crate::call::{Call, Room};

/// The answer number and the two counts.
#[derive(Clone, Copy, Debug, PartialEq, Eq)]
pub struct Verdict {
    pub answer: u32,
    pub vertices: u64,
    pub indices: u64,
}

/// The largest dimension, the largest product of dimensions, and the cap of condition 5, 2^124.
pub const DIMENSION_LIMIT: u32 = 16_777_217;
pub const POINT_LIMIT: u128 = 1_073_741_824;
pub const DISTANCE_LIMIT: f32 = f32::from_bits((124 + 127) << 23);

/// Document 01's table, condition after condition.
pub fn verdict(call: &Call, room: &Room) -> Verdict {
    if let Some(answer) = refused_before_counting(call, room.map) {
        return Verdict {
            answer,
            vertices: 0,
            indices: 0,
        };
    }
    let vertices = vertex_count(call);
    let indices = index_count(call);
    Verdict {
        answer: refused_for_room(room, vertices, indices).unwrap_or(0),
        vertices,
        indices,
    }
}

/// Conditions 1 to 5, which come before there is anything to count.
pub fn refused_before_counting(call: &Call, map: usize) -> Option<u32> {
    let conditions = [
        dimensions_out_of_bounds(call),
        box_out_of_dimensions(call),
        grid_of_another_length(call),
        map < call.grid.len(),
    ];
    match conditions.iter().position(|&holds| holds) {
        Some(place) => Some(place as u32 + 1),
        None if distance_out_of_bounds(call) => Some(5),
        None => None,
    }
}

/// Conditions 6 and 7.
fn refused_for_room(room: &Room, vertices: u64, indices: u64) -> Option<u32> {
    let threes = [room.positions, room.normals, room.cells];
    let threes_short = threes
        .iter()
        .any(|&length| (length as u128) < 3 * vertices as u128);
    let ones = [room.strides, room.crossings];
    let ones_short = ones
        .iter()
        .any(|&length| (length as u128) < vertices as u128);
    if threes_short || ones_short {
        Some(6)
    } else if (room.indices as u128) < indices as u128 {
        Some(7)
    } else {
        None
    }
}

fn dimensions_out_of_bounds(call: &Call) -> bool {
    let product: u128 = call.dims.iter().map(|&dim| dim as u128).product();
    call.dims
        .iter()
        .any(|&dim| dim == 0 || dim > DIMENSION_LIMIT)
        || product > POINT_LIMIT
}

fn box_out_of_dimensions(call: &Call) -> bool {
    (0..3).any(|axis| call.min[axis] > call.max[axis] || call.max[axis] >= call.dims[axis])
}

fn grid_of_another_length(call: &Call) -> bool {
    let product: u128 = call.dims.iter().map(|&dim| dim as u128).product();
    product != call.grid.len() as u128
}

fn distance_out_of_bounds(call: &Call) -> bool {
    points(call.min, call.max).any(|point| {
        let d = distance(call, point);
        d.is_nan() || d.abs() > DISTANCE_LIMIT
    })
}

/// x + X·y + X·Y·z.
pub fn index(call: &Call, point: [u32; 3]) -> u128 {
    let [x, y, z] = point.map(|coordinate| coordinate as u128);
    let row = call.dims[0] as u128;
    let layer = row * call.dims[1] as u128;
    x + row * y + layer * z
}

/// The distance at a point of an accepted box.
pub fn distance(call: &Call, point: [u32; 3]) -> f32 {
    call.grid[index(call, point) as usize]
}

pub(crate) fn negative(call: &Call, point: [u32; 3]) -> bool {
    distance(call, point) < 0.0
}

/// All points from `low` to `high`, both included, x innermost.
pub fn points(low: [u32; 3], high: [u32; 3]) -> impl Iterator<Item = [u32; 3]> {
    (low[2]..=high[2]).flat_map(move |z| {
        (low[1]..=high[1]).flat_map(move |y| (low[0]..=high[0]).map(move |x| [x, y, z]))
    })
}

/// The cells of the box, each by its lowest corner; none if the box is flat.
pub fn cells(call: &Call) -> impl Iterator<Item = [u32; 3]> {
    let flat = (0..3).any(|axis| call.min[axis] == call.max[axis]);
    let last = call.max.map(|coordinate| coordinate.saturating_sub(1));
    points(call.min, last).filter(move |_| !flat)
}

/// The points of the box that are no cell: on each axis the last one.
pub fn no_cells(call: &Call) -> impl Iterator<Item = [u32; 3]> {
    let max = call.max;
    points(call.min, max).filter(move |point| (0..3).any(|axis| point[axis] == max[axis]))
}

/// The eight corner distances of a cell, corner i at (i mod 2, i/2 mod 2, i/4).
pub fn corners(call: &Call, cell: [u32; 3]) -> [f32; 8] {
    std::array::from_fn(|i| {
        let i = i as u32;
        distance(
            call,
            [cell[0] + i % 2, cell[1] + i / 2 % 2, cell[2] + i / 4],
        )
    })
}

fn is_surface(corners: &[f32; 8]) -> bool {
    let negatives = corners.iter().filter(|&&d| d < 0.0).count();
    (1..=7).contains(&negatives)
}

fn vertex_count(call: &Call) -> u64 {
    cells(call)
        .filter(|&cell| is_surface(&corners(call, cell)))
        .count() as u64
}

/// How many of a cell's twelve edges have exactly one negative end: pairs of corners that differ in
/// one coordinate.
pub fn crossings(corners: &[f32; 8]) -> usize {
    let pairs = (0..8usize).flat_map(|a| (a + 1..8).map(move |b| (a, b)));
    pairs
        .filter(|(a, b)| (a ^ b).is_power_of_two())
        .filter(|&(a, b)| (corners[a] < 0.0) != (corners[b] < 0.0))
        .count()
}

/// Six indices for each face.
fn index_count(call: &Call) -> u64 {
    6 * face_count(call)
}

/// One face for each owned edge with exactly one negative end.
pub fn face_count(call: &Call) -> u64 {
    let along = |axis: usize| {
        cells(call)
            .filter(|&p1| owned(call, axis, p1) && changes_sign(call, axis, p1))
            .count() as u64
    };
    (0..3).map(along).sum()
}

/// Whether the box owns the edge along `axis` from p1, the lowest corner of one of its cells.
pub(crate) fn owned(call: &Call, axis: usize, p1: [u32; 3]) -> bool {
    let above_min = |other: usize| p1[other] > call.min[other];
    above_min((axis + 1) % 3)
        && above_min((axis + 2) % 3)
        && (call.max_plane.0[axis] || p1[axis] != call.max[axis] - 1)
}

/// Whether exactly one end of the edge along `axis` from p1 is negative.
pub(crate) fn changes_sign(call: &Call, axis: usize, p1: [u32; 3]) -> bool {
    let mut p2 = p1;
    p2[axis] += 1;
    negative(call, p1) != negative(call, p2)
}
