//! Bad calls: accepted calls with one, two or three things spoiled, and dimensions around the limits.
//!
//! Nothing here says what the answer should be: the model decides, and a spoiled call that is still
//! accepted is compared like any other.

use crate::calls::{accepted, some_flags, some_room, OwnCall};
use crate::fields::FIELDS;
use crate::random::Random;
use oracle::call::Room;
use oracle::model::index;

/// One way to spoil a call.
pub type Spoil = fn(&mut Random, &mut OwnCall, &mut Room);

/// Ordered so that a later one does not undo an earlier: distances while the box is still good, then
/// room, then grid and map, then the box, then the dimensions.
pub const SPOILS: [Spoil; 23] = [
    not_finite,
    above_the_cap,
    positions_one_short,
    normals_one_short,
    cells_one_short,
    strides_one_short,
    crossings_one_short,
    some_list_far_too_short,
    indices_one_short,
    indices_far_too_short,
    grid_one_short,
    grid_ends_before_max,
    grid_far_too_short,
    grid_one_long,
    grid_far_too_long,
    map_one_short,
    map_far_too_short,
    min_one_above_max,
    min_far_above_max,
    max_at_its_dimension,
    max_far_outside,
    a_dimension_of_zero,
    a_dimension_too_long,
];

/// An accepted call on a random field, spoiled in these ways.
pub fn spoiled(random: &mut Random, spoils: &[Spoil]) -> (OwnCall, Room) {
    let field = random.pick(&FIELDS);
    let mut call = accepted(random, &field, 5);
    let mut room = some_room(random, &call.view());
    for spoil in spoils {
        spoil(random, &mut call, &mut room);
    }
    (call, room)
}

fn place_in_box(random: &mut Random, call: &mut OwnCall, bits: u32) {
    let point = call.point_of_box(random);
    let place = index(&call.view(), point) as usize;
    call.grid[place] = f32::from_bits(bits);
}

fn not_finite(random: &mut Random, call: &mut OwnCall, _: &mut Room) {
    let bits = random.pick(&[
        0x7F80_0000,
        0xFF80_0000,
        0x7FC0_0000,
        0xFFC0_0000,
        0x7F80_0001,
        0xFFFF_FFFF,
    ]);
    place_in_box(random, call, bits);
}

fn above_the_cap(random: &mut Random, call: &mut OwnCall, _: &mut Room) {
    let next_up = oracle::model::DISTANCE_LIMIT.to_bits() + 1;
    let size = random.pick(&[next_up, next_up, next_up + 1, 0x7E00_0000, 0x7F7F_FFFF]);
    let sign = random.pick(&[0, 1 << 31]);
    place_in_box(random, call, size | sign);
}

/// One less than the call needs. Where it needs none the call stays good.
fn one_short(needed: usize) -> usize {
    needed.saturating_sub(1)
}

fn needed(call: &OwnCall) -> Room {
    oracle::expected::room_needed(&call.view()).unwrap_or_default()
}

fn positions_one_short(_: &mut Random, call: &mut OwnCall, room: &mut Room) {
    room.positions = one_short(needed(call).positions);
}

fn normals_one_short(_: &mut Random, call: &mut OwnCall, room: &mut Room) {
    room.normals = one_short(needed(call).normals);
}

fn cells_one_short(_: &mut Random, call: &mut OwnCall, room: &mut Room) {
    room.cells = one_short(needed(call).cells);
}

fn strides_one_short(_: &mut Random, call: &mut OwnCall, room: &mut Room) {
    room.strides = one_short(needed(call).strides);
}

fn crossings_one_short(_: &mut Random, call: &mut OwnCall, room: &mut Room) {
    room.crossings = one_short(needed(call).crossings);
}

fn some_list_far_too_short(random: &mut Random, _: &mut OwnCall, room: &mut Room) {
    let list = match random.between(0, 4) {
        0 => &mut room.positions,
        1 => &mut room.normals,
        2 => &mut room.cells,
        3 => &mut room.strides,
        _ => &mut room.crossings,
    };
    *list = random.between(0, *list as u64) as usize;
}

fn indices_one_short(_: &mut Random, call: &mut OwnCall, room: &mut Room) {
    room.indices = one_short(needed(call).indices);
}

fn indices_far_too_short(random: &mut Random, _: &mut OwnCall, room: &mut Room) {
    room.indices = random.between(0, room.indices as u64) as usize;
}

/// One less than the dimensions ask: the box may still lie in it.
fn grid_one_short(_: &mut Random, call: &mut OwnCall, _: &mut Room) {
    let length = one_short(call.grid.len());
    call.grid.truncate(length);
}

fn grid_one_long(_: &mut Random, call: &mut OwnCall, _: &mut Room) {
    call.grid.push(1.0);
}

/// Longer by a row, a layer or anything, with a map that is long enough for it or not.
fn grid_far_too_long(random: &mut Random, call: &mut OwnCall, room: &mut Room) {
    let [row, column, _] = call.dims.map(|dim| dim as u64);
    let anything = random.between(1, 40);
    let more = random.pick(&[row, row * column, anything]);
    call.grid.resize(call.grid.len() + more as usize, -1.0);
    room.map = random.pick(&[room.map, call.grid.len()]);
}

fn grid_ends_before_max(_: &mut Random, call: &mut OwnCall, _: &mut Room) {
    let length = index(&call.view(), call.max) as usize;
    call.grid.truncate(length);
}

fn grid_far_too_short(random: &mut Random, call: &mut OwnCall, _: &mut Room) {
    let length = random.between(0, index(&call.view(), call.max) as u64);
    call.grid.truncate(length as usize);
}

fn map_one_short(_: &mut Random, call: &mut OwnCall, room: &mut Room) {
    room.map = one_short(call.grid.len());
}

fn map_far_too_short(random: &mut Random, call: &mut OwnCall, room: &mut Room) {
    room.map = random.between(0, call.grid.len() as u64) as usize;
}

fn axis(random: &mut Random) -> usize {
    random.between(0, 2) as usize
}

fn min_one_above_max(random: &mut Random, call: &mut OwnCall, _: &mut Room) {
    let axis = axis(random);
    call.min[axis] = call.max[axis] + 1;
}

fn min_far_above_max(random: &mut Random, call: &mut OwnCall, _: &mut Room) {
    let axis = axis(random);
    call.min[axis] = random.pick(&[call.max[axis] + 7, 1 << 31, u32::MAX]);
}

fn max_at_its_dimension(random: &mut Random, call: &mut OwnCall, _: &mut Room) {
    let axis = axis(random);
    call.max[axis] = call.dims[axis];
}

/// Far outside, with products that wrap at 32 bits to a place inside the grid among them.
fn max_far_outside(random: &mut Random, call: &mut OwnCall, _: &mut Room) {
    let axis = axis(random);
    let wraps = (1u64 << 32).div_ceil(call.dims[0] as u64) as u32;
    call.max[axis] = random.pick(&[call.dims[axis] + 9, 1 << 31, u32::MAX, wraps, wraps + 1]);
}

fn a_dimension_of_zero(random: &mut Random, call: &mut OwnCall, _: &mut Room) {
    call.dims[axis(random)] = 0;
}

fn a_dimension_too_long(random: &mut Random, call: &mut OwnCall, _: &mut Room) {
    call.dims[axis(random)] = random.pick(&[16_777_218, 16_777_219, 1 << 25, 1 << 31, u32::MAX]);
}

/// Dimensions at the limits and one past them; the last rows' products wrap at 2^32 or at 2^64, some
/// to 0 and some to a small number.
pub const LIMITS: [[u32; 3]; 29] = [
    [16_777_217, 1, 1],
    [16_777_218, 1, 1],
    [16_777_217, 63, 1],
    [16_777_216, 64, 1],
    [16_777_217, 64, 1],
    [8, 8, 16_777_216],
    [8, 8, 16_777_217],
    [7, 9, 16_777_217],
    [7, 9, 16_777_218],
    [4, 16, 16_777_216],
    [5, 13, 16_519_104],
    [5, 13, 16_519_106],
    [1024, 1024, 1024],
    [1024, 1024, 1025],
    [32_768, 32_768, 1],
    [32_768, 32_769, 1],
    [3, 16_777_217, 21],
    [3, 16_777_217, 22],
    [3, 16_777_218, 3],
    [65_536, 65_536, 1],
    [4096, 4096, 4096],
    [16_777_216, 257, 1],
    [65_537, 65_536, 3],
    [2_097_152, 4_194_304, 2_097_152],
    [16_777_216, 16_777_216, 65_536],
    [13_474_304, 15_613_952, 87_680],
    [11_029_888, 12_372_992, 135_168],
    [16_777_217, 16_777_217, 16_777_217],
    [u32::MAX, u32::MAX, u32::MAX],
];

/// A call in given dimensions, which may be past every limit. Its box lies at the origin and reaches out
/// only where a step is short, so that a small grid holds it.
pub fn near_origin(random: &mut Random, dims: [u32; 3]) -> OwnCall {
    let steps = [
        1,
        dims[0] as u64,
        (dims[0] as u64).saturating_mul(dims[1] as u64),
    ];
    let max = std::array::from_fn(|axis| {
        let reach = if steps[axis] <= 64 { 3 } else { 0 };
        random
            .coordinate(0, reach)
            .min(dims[axis].saturating_sub(1))
    });
    let length: u64 = 1
        + (0..3)
            .map(|axis| steps[axis].wrapping_mul(max[axis] as u64))
            .sum::<u64>();
    let mut call = OwnCall {
        grid: vec![0.0; length as usize + random.between(0, 4) as usize],
        dims,
        min: [0; 3],
        max,
        max_plane: some_flags(random),
    };
    call.grid.iter_mut().for_each(|d| *d = random.signed(1.0));
    call
}
