//! A call of the mesher: its inputs and the lengths of what is lent for writing.

/// What goes in. The grid is as long as its slice, which need not fit the dimensions.
#[derive(Clone, Copy)]
pub struct Call<'a> {
    pub grid: &'a [f32],
    pub dims: [u32; 3],
    pub min: [u32; 3],
    pub max: [u32; 3],
    pub max_plane: MaxPlane,
}

impl Call<'_> {
    /// The same call with other flags.
    pub fn with(self, max_plane: MaxPlane) -> Self {
        Self { max_plane, ..self }
    }
}

/// The yes or no of each axis, x, y, z: whether faces are also made of edges along it that end on the box's
/// max side.
#[derive(Clone, Copy, Debug, PartialEq, Eq)]
pub struct MaxPlane(pub [bool; 3]);

impl MaxPlane {
    /// Document 01's two cases: without max plane, and with it.
    pub const NONE: Self = Self([false; 3]);
    pub const ALL: Self = Self([true; 3]);

    /// As one word: 1 for x, 2 for y and 4 for z.
    pub fn word(self) -> u32 {
        let [x, y, z] = self.0.map(u32::from);
        x + 2 * y + 4 * z
    }

    /// The flags of a word, which is 0 to 7.
    pub fn of_word(word: u32) -> Option<Self> {
        (word <= 7).then_some(Self([1, 2, 4].map(|bit| word & bit != 0)))
    }

    /// All eight, in the order of their words.
    pub fn every() -> impl Iterator<Item = Self> {
        (0..8).filter_map(Self::of_word)
    }

    /// Whether they are one or two, which the Rust has no word for.
    pub fn is_mixed(self) -> bool {
        self != Self::NONE && self != Self::ALL
    }
}

/// One number for each of the seven lent buffers, or one thing of a kind for each.
#[derive(Clone, Copy, Debug, Default, PartialEq, Eq)]
pub struct Lent<T> {
    pub positions: T,
    pub normals: T,
    pub cells: T,
    pub strides: T,
    pub crossings: T,
    pub map: T,
    pub indices: T,
}

/// The lengths of the lent buffers.
pub type Room = Lent<usize>;

/// The names of the lent buffers, in the order of `in_order`.
pub const BUFFERS: [&str; 7] = [
    "positions",
    "normals",
    "cells",
    "strides",
    "crossings",
    "map",
    "indices",
];

impl<T> Lent<T> {
    /// The seven, in the order of the call.
    pub fn in_order(self) -> [T; 7] {
        [
            self.positions,
            self.normals,
            self.cells,
            self.strides,
            self.crossings,
            self.map,
            self.indices,
        ]
    }

    /// The seven from the order of the call.
    pub fn from_order(lists: [T; 7]) -> Self {
        let [positions, normals, cells, strides, crossings, map, indices] = lists;
        Self {
            positions,
            normals,
            cells,
            strides,
            crossings,
            map,
            indices,
        }
    }
}

impl<T> Lent<T> {
    /// What a function makes of each of the seven.
    pub fn each<U>(self, make: impl FnMut(T) -> U) -> Lent<U> {
        Lent::from_order(self.in_order().map(make))
    }

    pub fn by_ref(&self) -> Lent<&T> {
        Lent {
            positions: &self.positions,
            normals: &self.normals,
            cells: &self.cells,
            strides: &self.strides,
            crossings: &self.crossings,
            map: &self.map,
            indices: &self.indices,
        }
    }

    pub fn by_mut(&mut self) -> Lent<&mut T> {
        Lent {
            positions: &mut self.positions,
            normals: &mut self.normals,
            cells: &mut self.cells,
            strides: &mut self.strides,
            crossings: &mut self.crossings,
            map: &mut self.map,
            indices: &mut self.indices,
        }
    }
}

impl Room {
    /// Exactly the room that V vertices, I indices and a grid of this length need.
    pub fn exact(vertices: u64, indices: u64, grid: usize) -> Self {
        let threes = 3 * vertices as usize;
        Self {
            positions: threes,
            normals: threes,
            cells: threes,
            strides: vertices as usize,
            crossings: vertices as usize,
            map: grid,
            indices: indices as usize,
        }
    }
}
