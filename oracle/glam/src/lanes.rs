//! The vector as four lanes of one register, the fourth unused: SSE2 on x86-64, NEON on Arm. Each operation is
//! one instruction that works by component, so that its bits are those of three floats.

use crate::Vec3Swizzles;
use std::ops::{Add, Div, Mul, Sub};

#[cfg(target_arch = "aarch64")]
use arm as processor;
#[cfg(target_arch = "x86_64")]
use x86 as processor;

use processor::Register;

/// Three floats in a register.
#[derive(Clone, Copy)]
pub struct Vec3A(Register);

impl Vec3A {
    pub const ZERO: Self = Self::from_array([0.0; 3]);
    pub const ONE: Self = Self::from_array([1.0; 3]);

    #[inline]
    pub const fn from_array([x, y, z]: [f32; 3]) -> Self {
        // SAFETY: a register is four floats, and any are allowed.
        Self(unsafe { std::mem::transmute::<[f32; 4], Register>([x, y, z, z]) })
    }

    #[inline]
    fn to_array(self) -> [f32; 4] {
        // SAFETY: a register is four floats.
        unsafe { std::mem::transmute(self.0) }
    }

    /// (dx·dx + dy·dy) + dz·dz, each operation rounded once.
    #[inline]
    pub fn distance_squared(self, other: Self) -> f32 {
        let d = self - other;
        let [x, y, z, _] = (d * d).to_array();
        (x + y) + z
    }

    #[inline]
    const fn splat(value: f32) -> Self {
        Self::from_array([value; 3])
    }
}

impl Vec3Swizzles for Vec3A {
    #[inline]
    fn yzx(self) -> Self {
        Self(processor::yzx(self.0))
    }

    #[inline]
    fn zxy(self) -> Self {
        Self(processor::zxy(self.0))
    }
}

impl From<[f32; 3]> for Vec3A {
    #[inline]
    fn from(array: [f32; 3]) -> Self {
        Self::from_array(array)
    }
}

impl From<Vec3A> for [f32; 3] {
    #[inline]
    fn from(v: Vec3A) -> Self {
        let [x, y, z, _] = v.to_array();
        [x, y, z]
    }
}

impl Add for Vec3A {
    type Output = Self;
    #[inline]
    fn add(self, other: Self) -> Self {
        Self(processor::add(self.0, other.0))
    }
}

impl Sub for Vec3A {
    type Output = Self;
    #[inline]
    fn sub(self, other: Self) -> Self {
        Self(processor::sub(self.0, other.0))
    }
}

impl Mul for Vec3A {
    type Output = Self;
    #[inline]
    fn mul(self, other: Self) -> Self {
        Self(processor::mul(self.0, other.0))
    }
}

impl Mul<Vec3A> for f32 {
    type Output = Vec3A;
    #[inline]
    fn mul(self, v: Vec3A) -> Vec3A {
        Vec3A::splat(self) * v
    }
}

impl Div<f32> for Vec3A {
    type Output = Self;
    #[inline]
    fn div(self, divisor: f32) -> Self {
        Self(processor::div(self.0, Self::splat(divisor).0))
    }
}

#[cfg(target_arch = "x86_64")]
mod x86 {
    use std::arch::x86_64::*;

    pub type Register = __m128;

    macro_rules! by_component {
        ($($name:ident $instruction:ident;)*) => { $(
            #[inline]
            pub fn $name(a: Register, b: Register) -> Register {
                // SAFETY: every x86-64 processor has SSE2.
                unsafe { $instruction(a, b) }
            }
        )* };
    }

    by_component! {
        add _mm_add_ps;
        sub _mm_sub_ps;
        mul _mm_mul_ps;
        div _mm_div_ps;
    }

    #[inline]
    pub fn yzx(v: Register) -> Register {
        // SAFETY: every x86-64 processor has SSE2.
        unsafe { _mm_shuffle_ps::<0b00_00_10_01>(v, v) }
    }

    #[inline]
    pub fn zxy(v: Register) -> Register {
        // SAFETY: every x86-64 processor has SSE2.
        unsafe { _mm_shuffle_ps::<0b00_01_00_10>(v, v) }
    }
}

#[cfg(target_arch = "aarch64")]
mod arm {
    use std::arch::aarch64::*;

    pub type Register = float32x4_t;

    macro_rules! by_component {
        ($($name:ident $instruction:ident;)*) => { $(
            #[inline]
            pub fn $name(a: Register, b: Register) -> Register {
                // SAFETY: every 64-bit Arm processor that Rust builds for has NEON.
                unsafe { $instruction(a, b) }
            }
        )* };
    }

    by_component! {
        add vaddq_f32;
        sub vsubq_f32;
        mul vmulq_f32;
        div vdivq_f32;
    }

    #[inline]
    pub fn yzx(v: Register) -> Register {
        // SAFETY: as above. Moved down by one, y z . x, and x put into the third lane.
        unsafe { vcopyq_laneq_f32::<2, 0>(vextq_f32::<1>(v, v), v) }
    }

    #[inline]
    pub fn zxy(v: Register) -> Register {
        // SAFETY: as above. Moved down by two, z . x y; x and y put into the second and third lane.
        unsafe { vcopyq_laneq_f32::<2, 1>(vcopyq_laneq_f32::<1, 0>(vextq_f32::<2>(v, v), v), v) }
    }
}
