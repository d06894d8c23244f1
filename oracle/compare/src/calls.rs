//! Random calls that are accepted: dimensions, a box at any offset, a grid as long as the dimensions say.

use crate::fields::Field;
use crate::random::Random;
use oracle::call::{Call, MaxPlane, Room};
use oracle::expected::{room_needed, Contents};

/// A call that owns its grid.
#[derive(Clone)]
pub struct OwnCall {
    pub grid: Vec<f32>,
    pub dims: [u32; 3],
    pub min: [u32; 3],
    pub max: [u32; 3],
    pub max_plane: MaxPlane,
}

impl OwnCall {
    pub fn view(&self) -> Call<'_> {
        Call {
            grid: &self.grid,
            dims: self.dims,
            min: self.min,
            max: self.max,
            max_plane: self.max_plane,
        }
    }

    pub fn index(&self, [x, y, z]: [u32; 3]) -> usize {
        let [row, column, _] = self.dims.map(|dim| dim as usize);
        x as usize + row * (y as usize + column * z as usize)
    }

    /// A random point of the box, its corners more often than others.
    pub fn point_of_box(&self, random: &mut Random) -> [u32; 3] {
        std::array::from_fn(|axis| match random.between(0, 3) {
            0 => self.min[axis],
            1 => self.max[axis],
            _ => random.coordinate(self.min[axis], self.max[axis]),
        })
    }
}

/// A call with room only for conditions 6 and 7 to refuse, on a field, with dimensions up to `longest`.
pub fn accepted(random: &mut Random, field: &Field, longest: u32) -> OwnCall {
    let dims = std::array::from_fn(|_| some_dimension(random, longest));
    in_dimensions(random, field, dims)
}

/// Any of the eight; all and none, where the Rust decides, twice as often as each other.
pub fn some_flags(random: &mut Random) -> MaxPlane {
    let word = random.pick(&[0, 0, 1, 2, 3, 4, 5, 6, 7, 7]);
    MaxPlane::of_word(word).expect("it is 0 to 7")
}

/// Mostly three and more, so that faces come up; one and two on an axis now and then.
fn some_dimension(random: &mut Random, longest: u32) -> u32 {
    let shortest = if random.one_in(8) { 1 } else { 3 };
    random.coordinate(shortest, longest)
}

/// The same with given dimensions.
pub fn in_dimensions(random: &mut Random, field: &Field, dims: [u32; 3]) -> OwnCall {
    let (min, max) = some_box(random, dims);
    in_box(random, field, dims, min, max)
}

/// Points in a row about the longest that the library keeps, 1,024, about twice that, and beyond.
pub const LONG_ROWS: [u32; 9] = [1022, 1023, 1024, 1025, 1026, 2047, 2048, 2049, 4097];

/// The same with a box of so many points in a row, and few rows.
pub fn with_row(random: &mut Random, field: &Field, points: u32) -> OwnCall {
    let before = random.coordinate(0, 3);
    let behind = random.coordinate(0, 3);
    let dims = [
        before + points + behind,
        random.coordinate(2, 5),
        random.coordinate(2, 5),
    ];
    let (mut min, mut max) = some_box(random, dims);
    min[0] = before;
    max[0] = before + points - 1;
    in_box(random, field, dims, min, max)
}

fn in_box(
    random: &mut Random,
    field: &Field,
    dims: [u32; 3],
    min: [u32; 3],
    max: [u32; 3],
) -> OwnCall {
    let mut call = OwnCall {
        grid: Vec::new(),
        dims,
        min,
        max,
        max_plane: some_flags(random),
    };
    let length: u64 = dims.iter().map(|&dim| dim as u64).product();
    call.grid = vec![0.0; length as usize];
    field.fill(random, dims, &mut call.grid);
    if random.one_in(3) {
        spoil_outside_the_box(random, &mut call);
    }
    call
}

/// Room for the call, exactly what it needs or with some to spare in each buffer.
pub fn some_room(random: &mut Random, call: &Call) -> Room {
    let needed = room_needed(call).expect("the call is accepted with enough room");
    if random.one_in(3) {
        needed
    } else {
        needed.each(|length| length + random.between(0, 9) as usize)
    }
}

/// Any box of the grid; on each axis it reaches across the whole of it half of the time.
fn some_box(random: &mut Random, dims: [u32; 3]) -> ([u32; 3], [u32; 3]) {
    let ranges = dims.map(|dim| {
        if random.one_in(2) {
            return (0, dim - 1);
        }
        let one = random.coordinate(0, dim - 1);
        let other = random.coordinate(0, dim - 1);
        (one.min(other), one.max(other))
    });
    (ranges.map(|(low, _)| low), ranges.map(|(_, high)| high))
}

/// Distances outside the box never matter: not-a-number, infinities and anything else stand there.
fn spoil_outside_the_box(random: &mut Random, call: &mut OwnCall) {
    let [row, column, _] = call.dims.map(|dim| dim as usize);
    for i in 0..call.grid.len() {
        let point = [i % row, i / row % column, i / row / column];
        let inside = (0..3)
            .all(|axis| (call.min[axis] as usize..=call.max[axis] as usize).contains(&point[axis]));
        if !inside && random.one_in(2) {
            call.grid[i] = f32::from_bits(random.pick(&[
                0x7FC0_0000,
                0x7F80_0000,
                0xFF80_0000,
                0x7D80_0001,
                0xFFFF_FFFF,
                0xBF80_0000,
            ]));
        }
    }
}

/// What the buffers hold before the call: anything, as in memory that was used before. A map's old
/// numbers are small half of the time, so that they could be taken for vertices.
pub fn old_contents(room: &Room, random: &mut Random) -> Contents {
    let mut anything = |length: usize| -> Vec<u32> { (0..length).map(|_| random.word()).collect() };
    let mut contents = room.each(&mut anything);
    if random.one_in(2) {
        contents.map.iter_mut().for_each(|entry| *entry %= 16);
    }
    contents
        .crossings
        .iter_mut()
        .for_each(|number| *number %= 256);
    contents
}
