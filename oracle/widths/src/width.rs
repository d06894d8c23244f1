//! The kinds of distances that the library meshes, with its functions over each and the wrapper's.

use bed::raw::{self, IsEnclosed, SurfaceNets};
use bed::{MaxPlane, Refusal, SurfaceNetsBuffer};

/// A kind of distance: a float, or a whole number that means the float of the same value.
pub trait Width: Copy + PartialEq + Into<f32> {
    const SURFACE_NETS: SurfaceNets<Self>;
    const IS_ENCLOSED: IsEnclosed<Self>;
}

/// A kind of whole number.
pub trait Whole: Width + PartialOrd {
    const NAME: &'static str;
    const LEAST: i32;
    const MOST: i32;
    const ZERO: Self;
    const WRAPPED: Wrapped<Self>;
    /// 256 numbers: all there are of 8 bits, and of 16 those at both ends and around zero.
    const SOME: [i32; 256];

    /// The number of the same value. What is none becomes one near it, and not-a-number 0.
    fn of(distance: f32) -> Self;
}

/// The wrapper's call with a buffer that grows.
pub type Wrapped<D> =
    fn(&[D], [u32; 3], [u32; 3], [u32; 3], MaxPlane, &mut SurfaceNetsBuffer) -> Result<(), Refusal>;

impl Width for f32 {
    const SURFACE_NETS: SurfaceNets<Self> = raw::bed_surface_nets;
    const IS_ENCLOSED: IsEnclosed<Self> = raw::bed_is_enclosed;
}

impl Width for i16 {
    const SURFACE_NETS: SurfaceNets<Self> = raw::bed_surface_nets_i16;
    const IS_ENCLOSED: IsEnclosed<Self> = raw::bed_is_enclosed_i16;
}

impl Width for i8 {
    const SURFACE_NETS: SurfaceNets<Self> = raw::bed_surface_nets_i8;
    const IS_ENCLOSED: IsEnclosed<Self> = raw::bed_is_enclosed_i8;
}

impl Whole for i16 {
    const NAME: &'static str = "16 bits";
    const LEAST: i32 = i16::MIN as i32;
    const MOST: i32 = i16::MAX as i32;
    const ZERO: Self = 0;
    const WRAPPED: Wrapped<Self> = bed::surface_nets::<i16>;
    const SOME: [i32; 256] = some(Self::LEAST, Self::MOST);

    fn of(distance: f32) -> Self {
        distance as i16
    }
}

impl Whole for i8 {
    const NAME: &'static str = "8 bits";
    const LEAST: i32 = i8::MIN as i32;
    const MOST: i32 = i8::MAX as i32;
    const ZERO: Self = 0;
    const WRAPPED: Wrapped<Self> = bed::surface_nets::<i8>;
    const SOME: [i32; 256] = some(Self::LEAST, Self::MOST);

    fn of(distance: f32) -> Self {
        distance as i8
    }
}

/// 64 numbers from the least on, 128 around zero, and 64 up to the most.
const fn some(least: i32, most: i32) -> [i32; 256] {
    let mut numbers = [0; 256];
    let mut place = 0;
    while place < 256 {
        let i = place as i32;
        numbers[place] = match place {
            0..=63 => least + i,
            64..=191 => i - 128,
            _ => most - 255 + i,
        };
        place += 1;
    }
    numbers
}
