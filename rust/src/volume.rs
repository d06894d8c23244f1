//! The volume of a mesh, from its positions and triangles alone.

use crate::environment::DefaultEnvironment;
use crate::raw::bed_volume;
use std::fmt;

/// Why a mesh was not weighed: the answers 61 to 64, in the order in which they are tried.
#[derive(Clone, Copy, Debug, PartialEq, Eq)]
pub enum VolumeError {
    /// 61: positions or indices are not in threes.
    Threes,
    /// 62: there are more than 16,384 triangles.
    TooMany,
    /// 63: a coordinate, of any vertex, is not finite or not from 0 to 128.
    Outside,
    /// 64: an index is not below the number of vertices.
    NoVertex,
}

impl VolumeError {
    /// The answer number, 61 to 64.
    pub fn number(self) -> u32 {
        match self {
            VolumeError::Threes => 61,
            VolumeError::TooMany => 62,
            VolumeError::Outside => 63,
            VolumeError::NoVertex => 64,
        }
    }
}

impl fmt::Display for VolumeError {
    fn fmt(&self, out: &mut fmt::Formatter) -> fmt::Result {
        out.write_str(match self {
            VolumeError::Threes => "positions or indices are not in threes",
            VolumeError::TooMany => "there are more than 16384 triangles",
            VolumeError::Outside => "a coordinate is not finite or not from 0 to 128",
            VolumeError::NoVertex => "an index is not below the number of vertices",
        })
    }
}

impl std::error::Error for VolumeError {}

/// Six times the signed volume of a mesh, in cubed steps of 1/256: each coordinate is rounded down to
/// a step, exactly, and the determinants of the triangles' corners are summed.
///
/// A closed mesh whose triangles turn counter-clockwise as seen from outside, as those of
/// [`surface_nets`](crate::surface_nets) do as seen from outside the sludge, has a volume above zero.
/// Divide by 6·256³ for cubed grid steps.
///
/// ```
/// let corners = [0.0, 0.0, 0.0, 1.0, 0.0, 0.0, 0.0, 1.0, 0.0, 0.0, 0.0, 1.0];
/// let triangles = [0, 2, 1, 0, 1, 3, 0, 3, 2, 1, 2, 3];
/// assert_eq!(bed::volume(&corners, &triangles), Ok(256 * 256 * 256));
/// assert_eq!(bed::volume(&corners, &[0, 1, 4]), Err(bed::VolumeError::NoVertex));
/// ```
pub fn volume(positions: &[f32], indices: &[u32]) -> Result<i64, VolumeError> {
    let _environment = DefaultEnvironment::enter();
    let mut volume = 0;
    // SAFETY: the pointers and lengths come from slices, which are aligned and never null, and `volume`
    // is a variable of its own.
    let answer = unsafe {
        bed_volume(
            positions.as_ptr(),
            positions.len(),
            indices.as_ptr(),
            indices.len(),
            &mut volume,
        )
    };
    match answer {
        0 => Ok(volume),
        61 => Err(VolumeError::Threes),
        62 => Err(VolumeError::TooMany),
        63 => Err(VolumeError::Outside),
        64 => Err(VolumeError::NoVertex),
        _ => unreachable!("the library answers 0 or 61 to 64"),
    }
}
