//! A stand-in for glam: a vector of three floats, as far as the published Rust uses it.
//!
//! The crate itself is not among the documents. Document 01 says what its operations mean, and this
//! crate is those words as code: every operation goes by component and rounds once, and the squared
//! distance is (dx·dx + dy·dy) + dz·dz. Rust never fuses two operations into one, so each `*`, `+`,
//! `-` and `/` is one rounding to nearest, ties to even.
//!
//! The vector is three floats, or, with the feature `lanes`, one register of four, as glam itself has it on
//! processors that it knows: the same operations, so the same bits. The oracle compares with the first; the bench
//! times both.
//!
//! Every function is `#[inline]`, as glam's own are: the bench times the published Rust over this crate, and
//! a call for each sum of two vectors would make it slower than its authors ship it.

#[cfg(feature = "lanes")]
mod lanes;
#[cfg(not(feature = "lanes"))]
mod plain;

#[cfg(feature = "lanes")]
pub use lanes::Vec3A;
#[cfg(not(feature = "lanes"))]
pub use plain::Vec3A;

use std::ops::AddAssign;

/// The two turns of the axes that the gradient uses.
pub trait Vec3Swizzles {
    fn yzx(self) -> Self;
    fn zxy(self) -> Self;
}

impl AddAssign for Vec3A {
    #[inline]
    fn add_assign(&mut self, other: Self) {
        *self = *self + other;
    }
}
