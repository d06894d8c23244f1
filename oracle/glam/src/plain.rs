//! The vector as three floats.

use crate::Vec3Swizzles;
use std::ops::{Add, Div, Mul, Sub};

/// Three floats held as one value.
#[derive(Clone, Copy)]
pub struct Vec3A {
    x: f32,
    y: f32,
    z: f32,
}

impl Vec3A {
    pub const ZERO: Self = Self::from_array([0.0; 3]);
    pub const ONE: Self = Self::from_array([1.0; 3]);

    #[inline]
    pub const fn from_array([x, y, z]: [f32; 3]) -> Self {
        Self { x, y, z }
    }

    /// (dx·dx + dy·dy) + dz·dz, each operation rounded once.
    #[inline]
    pub fn distance_squared(self, other: Self) -> f32 {
        let d = self - other;
        (d.x * d.x + d.y * d.y) + d.z * d.z
    }

    #[inline]
    fn by_component(self, other: Self, operation: impl Fn(f32, f32) -> f32) -> Self {
        Self {
            x: operation(self.x, other.x),
            y: operation(self.y, other.y),
            z: operation(self.z, other.z),
        }
    }

    #[inline]
    const fn splat(value: f32) -> Self {
        Self::from_array([value; 3])
    }
}

impl Vec3Swizzles for Vec3A {
    #[inline]
    fn yzx(self) -> Self {
        Self::from_array([self.y, self.z, self.x])
    }

    #[inline]
    fn zxy(self) -> Self {
        Self::from_array([self.z, self.x, self.y])
    }
}

impl From<[f32; 3]> for Vec3A {
    #[inline]
    fn from(array: [f32; 3]) -> Self {
        Self::from_array(array)
    }
}

impl From<Vec3A> for [f32; 3] {
    #[inline]
    fn from(v: Vec3A) -> Self {
        [v.x, v.y, v.z]
    }
}

impl Add for Vec3A {
    type Output = Self;
    #[inline]
    fn add(self, other: Self) -> Self {
        self.by_component(other, |a, b| a + b)
    }
}

impl Sub for Vec3A {
    type Output = Self;
    #[inline]
    fn sub(self, other: Self) -> Self {
        self.by_component(other, |a, b| a - b)
    }
}

impl Mul for Vec3A {
    type Output = Self;
    #[inline]
    fn mul(self, other: Self) -> Self {
        self.by_component(other, |a, b| a * b)
    }
}

impl Mul<Vec3A> for f32 {
    type Output = Vec3A;
    #[inline]
    fn mul(self, v: Vec3A) -> Vec3A {
        Vec3A::splat(self) * v
    }
}

impl Div<f32> for Vec3A {
    type Output = Self;
    #[inline]
    fn div(self, divisor: f32) -> Self {
        self.by_component(Self::splat(divisor), |a, b| a / b)
    }
}
