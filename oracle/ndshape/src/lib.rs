//! A stand-in for ndshape: the index of a point in a grid, as far as the published Rust uses it.
//!
//! The crate itself is not among the documents. Document 01 says: the index of (x, y, z) in
//! dimensions (X, Y, Z) is x + X·y + X·Y·z. The Rust holds it in a u32; what passes 2^32 wraps here,
//! in every kind of build. Below document 01's limits nothing wraps. Every function is `#[inline]`, since
//! the bench times the published Rust over this file.

/// A grid's shape: it knows the index of each point.
pub trait Shape<const N: usize> {
    type Coord;

    fn linearize(&self, point: [Self::Coord; N]) -> Self::Coord;
}

/// Dimensions known when the program runs. The two products are made once.
#[derive(Clone, Copy)]
pub struct RuntimeShape {
    row: u32,
    layer: u32,
}

impl RuntimeShape {
    #[inline]
    pub fn new([x, y, _]: [u32; 3]) -> Self {
        Self {
            row: x,
            layer: x.wrapping_mul(y),
        }
    }
}

impl Shape<3> for RuntimeShape {
    type Coord = u32;

    #[inline]
    fn linearize(&self, point: [u32; 3]) -> u32 {
        index(point, self.row, self.layer)
    }
}

/// Dimensions known when the program is compiled, the form of the original's example.
#[derive(Clone, Copy)]
pub struct ConstShape<const X: u32, const Y: u32, const Z: u32>;

impl<const X: u32, const Y: u32, const Z: u32> Shape<3> for ConstShape<X, Y, Z> {
    type Coord = u32;

    #[inline]
    fn linearize(&self, point: [u32; 3]) -> u32 {
        index(point, X, X.wrapping_mul(Y))
    }
}

#[inline]
fn index([x, y, z]: [u32; 3], row: u32, layer: u32) -> u32 {
    x.wrapping_add(row.wrapping_mul(y))
        .wrapping_add(layer.wrapping_mul(z))
}
