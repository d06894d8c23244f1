//! The shape of use that callers of fast-surface-nets know: one buffer that grows and is reused.

use crate::distance::Distance;
use crate::lent::{surface_nets_lent, Counts, Lent, MaxPlane};
use crate::refusal::Refusal;

/// A grid index with this entry in `stride_to_index` made no vertex: a cell without one, or a point that is no cell.
pub const NULL_VERTEX: u32 = u32::MAX;

/// The mesh of the last call, in the fields of fast-surface-nets and one more. Reuse it to keep its memory.
#[derive(Clone, Debug, Default, PartialEq)]
pub struct SurfaceNetsBuffer {
    /// Where each vertex lies, in grid coordinates.
    pub positions: Vec<[f32; 3]>,
    /// The gradient at each vertex, not of unit length.
    pub normals: Vec<[f32; 3]>,
    /// Triangles, three vertex numbers each. They look out of the bed: a face's corners run counter-clockwise
    /// round its grid edge, seen from the end that is not negative, with x, y, z right-handed.
    pub indices: Vec<u32>,
    /// The cell of each vertex, named by its lowest corner.
    pub surface_points: Vec<[u32; 3]>,
    /// The grid index of each vertex's cell.
    pub surface_strides: Vec<u32>,
    /// How many of the twelve edges of each vertex's cell the surface crosses: 3 to 9, or 12. fast-surface-nets does not
    /// say it.
    pub crossings: Vec<u8>,
    /// The vertex number of each cell, by grid index, and [`NULL_VERTEX`] at every other point of the box.
    /// Entries of points outside the box keep what an earlier call left. In fast-surface-nets the points
    /// of the box that are no cell keep theirs too.
    pub stride_to_index: Vec<u32>,
}

/// Meshes the box from `min` to `max`, both included, into a buffer that grows as needed.
///
/// After it the lists hold exactly V vertices and I indices, and the map has the grid's length, new
/// entries beginning as [`NULL_VERTEX`]. A lack of room is no refusal here, since the buffer grows; any
/// other refusal leaves the buffer as it was.
///
/// The grid may hold f32, i16 or i8; see [`Distance`].
///
/// ```
/// use bed::{surface_nets, MaxPlane, SurfaceNetsBuffer};
///
/// let mut sdf = [20i16; 27];
/// sdf[13] = -7;
/// let mut buffer = SurfaceNetsBuffer::default();
/// surface_nets(&sdf, [3; 3], [0; 3], [2; 3], MaxPlane::NONE, &mut buffer).unwrap();
///
/// let mut of_floats = SurfaceNetsBuffer::default();
/// surface_nets(&sdf.map(f32::from), [3; 3], [0; 3], [2; 3], MaxPlane::NONE, &mut of_floats).unwrap();
/// assert_eq!(buffer, of_floats);
/// ```
pub fn surface_nets<D: Distance>(
    sdf: &[D],
    dims: [u32; 3],
    min: [u32; 3],
    max: [u32; 3],
    max_plane: MaxPlane,
    buffer: &mut SurfaceNetsBuffer,
) -> Result<(), Refusal> {
    let before = buffer.lengths();
    buffer.take_up_capacity();
    lengthen(&mut buffer.stride_to_index, sdf.len(), NULL_VERTEX);
    let attempt = |buffer: &mut SurfaceNetsBuffer| {
        surface_nets_lent(sdf, dims, min, max, max_plane, &mut buffer.lend())
    };
    let mut answered = attempt(buffer);
    if let Err(Refusal::VerticesShort(needed) | Refusal::IndicesShort(needed)) = answered {
        buffer.make_room(needed);
        answered = attempt(buffer);
    }
    let after = answered.map(|counts| Lengths::of(counts, sdf.len()));
    buffer.cut(after.unwrap_or(before));
    after.map(|_| ())
}

/// The lengths of a buffer's seven lists.
#[derive(Clone, Copy)]
struct Lengths {
    positions: usize,
    normals: usize,
    indices: usize,
    surface_points: usize,
    surface_strides: usize,
    crossings: usize,
    stride_to_index: usize,
}

impl Lengths {
    fn of(counts: Counts, grid: usize) -> Self {
        let vertices = counts.vertices as usize;
        Self {
            positions: vertices,
            normals: vertices,
            indices: counts.indices as usize,
            surface_points: vertices,
            surface_strides: vertices,
            crossings: vertices,
            stride_to_index: grid,
        }
    }
}

impl SurfaceNetsBuffer {
    fn lengths(&self) -> Lengths {
        Lengths {
            positions: self.positions.len(),
            normals: self.normals.len(),
            indices: self.indices.len(),
            surface_points: self.surface_points.len(),
            surface_strides: self.surface_strides.len(),
            crossings: self.crossings.len(),
            stride_to_index: self.stride_to_index.len(),
        }
    }

    fn lend(&mut self) -> Lent<'_> {
        Lent {
            positions: self.positions.as_flattened_mut(),
            normals: self.normals.as_flattened_mut(),
            cells: self.surface_points.as_flattened_mut(),
            strides: &mut self.surface_strides,
            crossings: &mut self.crossings,
            stride_to_index: &mut self.stride_to_index,
            indices: &mut self.indices,
        }
    }

    /// Lends the lists in full, so that a reused buffer seldom has to be offered twice.
    fn take_up_capacity(&mut self) {
        let vertices = self.positions.capacity() as u64;
        let indices = self.indices.capacity() as u64;
        self.make_room(Counts { vertices, indices });
    }

    fn make_room(&mut self, needed: Counts) {
        let vertices = needed.vertices as usize;
        lengthen(&mut self.positions, vertices, [0.0; 3]);
        lengthen(&mut self.normals, vertices, [0.0; 3]);
        lengthen(&mut self.surface_points, vertices, [0; 3]);
        lengthen(&mut self.surface_strides, vertices, 0);
        lengthen(&mut self.crossings, vertices, 0);
        lengthen(&mut self.indices, needed.indices as usize, 0);
    }

    /// Shortens the lists to these lengths. Their memory stays.
    fn cut(&mut self, to: Lengths) {
        self.positions.truncate(to.positions);
        self.normals.truncate(to.normals);
        self.indices.truncate(to.indices);
        self.surface_points.truncate(to.surface_points);
        self.surface_strides.truncate(to.surface_strides);
        self.crossings.truncate(to.crossings);
        self.stride_to_index.truncate(to.stride_to_index);
    }
}

/// Makes a list at least this long; none is shortened.
fn lengthen<T: Clone>(list: &mut Vec<T>, length: usize, fill: T) {
    if list.len() < length {
        list.resize(length, fill);
    }
}
