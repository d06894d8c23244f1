//! A bed closed by a border of far points, so that its mesh has no hole and encloses the sludge on floor and walls.

use crate::distance::Distance;
use crate::environment::DefaultEnvironment;
use crate::raw::{self, BedBox};
use std::fmt;

/// Why a grid, or a layer of it, was not closed: the answers 1, 71, 3, 72, 73 and 74, in the order in which they are tried.
#[derive(Clone, Copy, Debug, PartialEq, Eq)]
pub enum CloseRefusal {
    /// 1: a dimension is 0 or above 16,777,217, or their product is above 1,073,741,824.
    Dimensions,
    /// 71, of a layer alone: z is not below the closed grid's depth, three more than the grid's.
    Height,
    /// 3: the grid's length is not the product of the dimensions, or the layer's is not what its place wants.
    Length,
    /// 72: the wall is not a number, not above zero or above 2^124.
    Wall,
    /// 73: the closed dimensions are too large.
    TooLarge,
    /// 74: the lent room is shorter than the closed grid, or layer.
    Room,
}

impl CloseRefusal {
    /// The answer number.
    pub fn number(self) -> u32 {
        match self {
            CloseRefusal::Dimensions => 1,
            CloseRefusal::Height => 71,
            CloseRefusal::Length => 3,
            CloseRefusal::Wall => 72,
            CloseRefusal::TooLarge => 73,
            CloseRefusal::Room => 74,
        }
    }

    fn of(answer: u32) -> Result<(), CloseRefusal> {
        match answer {
            0 => Ok(()),
            1 => Err(CloseRefusal::Dimensions),
            71 => Err(CloseRefusal::Height),
            3 => Err(CloseRefusal::Length),
            72 => Err(CloseRefusal::Wall),
            73 => Err(CloseRefusal::TooLarge),
            74 => Err(CloseRefusal::Room),
            _ => unreachable!("the library answers 0, 1, 3 or 71 to 74"),
        }
    }
}

impl fmt::Display for CloseRefusal {
    fn fmt(&self, out: &mut fmt::Formatter) -> fmt::Result {
        out.write_str(match self {
            CloseRefusal::Dimensions => "a dimension is 0 or above 16777217, or the product of the dimensions is above 1073741824",
            CloseRefusal::Height => "the closed grid has no such layer",
            CloseRefusal::Length => "the grid's length is not the product of the dimensions",
            CloseRefusal::Wall => "the wall is not a number, not above zero or above 2^124",
            CloseRefusal::TooLarge => "with a border round it the grid has too many points",
            CloseRefusal::Room => "the lent room is too short",
        })
    }
}

impl std::error::Error for CloseRefusal {}

/// The dimensions of the closed grid, three more on each axis, or nothing where they would wrap.
fn closed_dims(dims: [u32; 3]) -> Option<[u32; 3]> {
    let [x, y, z] = dims.map(|n| n.checked_add(3));
    Some([x?, y?, z?])
}

/// How many numbers they make, or nothing where none would be accepted.
fn length(dims: &[u32]) -> Option<usize> {
    let most = 1 << 30;
    dims.iter()
        .try_fold(1u64, |product, &n| {
            product.checked_mul(n.into()).filter(|&n| n <= most)
        })
        .map(|product| product as usize)
}

/// Closes a grid: `closed` becomes the grid of three more points on each axis that has the distance of (x, y, z) at (x + 1, y + 1, z + 1) and the wall
/// everywhere else, one layer at min and two at max. Its dimensions are answered.
///
/// Of every closed grid [`is_enclosed`](crate::is_enclosed) says yes for its whole box. With the wall of [`wall_for`] the vertices of the border's
/// cells lie on the planes of the outermost points, bit for bit. Positions of its mesh are those of the closed grid: one more on each axis.
///
/// ```
/// let sdf = [-1.0f32; 8]; // a tank of sludge
/// let wall = bed::wall_for(bed::deepest(0.0, &sdf));
/// let mut closed = Vec::new();
/// let dims = bed::close(&sdf, [2; 3], wall, &mut closed).unwrap();
/// assert_eq!(dims, [5; 3]);
/// let mut mesh = bed::SurfaceNetsBuffer::default();
/// bed::surface_nets(&closed, dims, [0; 3], [4; 3], bed::MaxPlane::NONE, &mut mesh).unwrap();
/// let weight = bed::weigh(mesh.positions.as_flattened(), 0, &mesh.indices).unwrap();
/// assert_eq!(weight.sum, 6 * 256 * 256 * 256); // one cubed grid step
/// ```
pub fn close<D: Distance>(
    sdf: &[D],
    dims: [u32; 3],
    wall: f32,
    closed: &mut Vec<f32>,
) -> Result<[u32; 3], CloseRefusal> {
    // Where the closed grid could not be held the library refuses before it looks at the room.
    let wanted = closed_dims(dims);
    closed.resize(wanted.and_then(|dims| length(&dims)).unwrap_or(0), 0.0);
    close_lent(sdf, dims, wall, closed)?;
    Ok(wanted.expect("the library refuses dimensions that wrap"))
}

/// [`close`] into room that is lent; what stands past the closed grid is kept, and a refusal changes nothing.
pub fn close_lent<D: Distance>(
    sdf: &[D],
    dims: [u32; 3],
    wall: f32,
    closed: &mut [f32],
) -> Result<(), CloseRefusal> {
    let _environment = DefaultEnvironment::enter();
    // SAFETY: pointers and lengths come from slices, which are aligned and never null, and the box is a variable of its own.
    let answer = unsafe {
        D::CLOSE(
            sdf.as_ptr(),
            sdf.len(),
            &BedBox::of(dims),
            wall,
            closed.as_mut_ptr(),
            closed.len(),
        )
    };
    CloseRefusal::of(answer)
}

/// The layer z of the closed grid into room that is lent, for a bed that comes one layer at a time: at 0 and at the last two a layer of wall, made from no
/// number at all, and else from the layer z - 1 of the grid. All of them, one behind the other, are what [`close`] makes.
pub fn close_layer<D: Distance>(
    layer: &[D],
    dims: [u32; 3],
    z: u32,
    wall: f32,
    closed: &mut [f32],
) -> Result<(), CloseRefusal> {
    let _environment = DefaultEnvironment::enter();
    // SAFETY: as in `close_lent`.
    let answer = unsafe {
        D::CLOSE_LAYER(
            layer.as_ptr(),
            layer.len(),
            &BedBox::of(dims),
            z,
            wall,
            closed.as_mut_ptr(),
            closed.len(),
        )
    };
    CloseRefusal::of(answer)
}

/// How deep distances lie below zero: the largest magnitude of those below zero, or `so_far` where that is larger. Begin with 0.0, and go on from layer to
/// layer with what was answered.
pub fn deepest<D: Distance>(so_far: f32, sdf: &[D]) -> f32 {
    let _environment = DefaultEnvironment::enter();
    // SAFETY: the pointer and length come from a slice, which is aligned and never null.
    unsafe { D::DEEPEST(so_far, sdf.as_ptr(), sdf.len()) }
}

/// A wall that is far enough for a bed that lies so [`deepest`]: the least power of two that is at least 2^25 times as large, at most 2^124, and 1.0 where
/// nothing is below zero.
pub fn wall_for(deepest: f32) -> f32 {
    let _environment = DefaultEnvironment::enter();
    // SAFETY: nothing is lent.
    unsafe { raw::bed_wall_for(deepest) }
}

#[cfg(test)]
mod tests {
    use super::*;

    #[test]
    fn layers_make_up_the_whole() {
        let sdf: Vec<i16> = (0..2 * 3 * 4).map(|n| n * 7 % 11 - 5).collect();
        let dims = [2, 3, 4];
        let wall = wall_for(deepest(0.0, &sdf));
        assert_eq!(wall, (5.0f32 * (1 << 25) as f32).log2().ceil().exp2());
        let mut whole = Vec::new();
        assert_eq!(close(&sdf, dims, wall, &mut whole), Ok([5, 6, 7]));
        let mut layer = [0.0; 30];
        for z in 0..7u32 {
            let open = (1..=4).contains(&z);
            let from = if open { 6 * (z as usize - 1) } else { 0 };
            let given = &sdf[from..from + if open { 6 } else { 0 }];
            close_layer(given, dims, z, wall, &mut layer).unwrap();
            assert_eq!(layer, whole[30 * z as usize..][..30]);
        }
        assert_eq!(
            close_layer::<f32>(&[], dims, 7, wall, &mut layer),
            Err(CloseRefusal::Height)
        );
        for (place, &distance) in sdf.iter().enumerate() {
            let [x, y, z] = [place % 2, place / 2 % 3, place / 6];
            assert_eq!(
                whole[x + 1 + 5 * (y + 1) + 30 * (z + 1)],
                f32::from(distance)
            );
        }
        assert_eq!(
            whole.iter().filter(|&&value| value == wall).count(),
            5 * 6 * 7 - 24
        );
    }

    #[test]
    fn refusals_in_their_order() {
        let mut closed = Vec::new();
        let mut refused =
            |sdf: &[f32], dims, wall| close(sdf, dims, wall, &mut closed).unwrap_err().number();
        assert_eq!(refused(&[], [0, 1, 1], -1.0), 1);
        assert_eq!(refused(&[], [u32::MAX; 3], -1.0), 1);
        assert_eq!(refused(&[], [1, 1, 1], -1.0), 3);
        for wall in [0.0, -1.0, f32::NAN, f32::INFINITY, 3e37] {
            assert_eq!(refused(&[1.0], [1, 1, 1], wall), 72);
        }
        assert_eq!(refused(&vec![1.0; 1 << 24], [1 << 24, 1, 1], 1.0), 73);
        assert_eq!(
            close_lent(&[1.0f32], [1; 3], 1.0, &mut [0.0; 63]),
            Err(CloseRefusal::Room)
        );
    }
}
