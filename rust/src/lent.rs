//! The call over lent slices: nothing is allocated, and what is not written is kept.

use crate::distance::Distance;
use crate::environment::DefaultEnvironment;
use crate::raw::BedBox;
use crate::refusal::Refusal;

/// The vertex count V and the index count I of a mesh.
#[derive(Clone, Copy, Debug, Default, PartialEq, Eq)]
pub struct Counts {
    /// V, the number of vertices.
    pub vertices: u64,
    /// I, the number of indices: three a triangle.
    pub indices: u64,
}

/// A yes or no for each axis: whether faces are also made of grid edges along it that end on the box's max
/// side.
///
/// fast-surface-nets has one for all three, as a feature of the build: without `eval-max-plane` it is
/// [`NONE`](MaxPlane::NONE), with it [`ALL`](MaxPlane::ALL).
///
/// A box that is cut on an axis at k, min <= k < max there, gives a piece from min to k + 1 and one from k to
/// max. If on that axis the lower piece has its flag off and the upper keeps the whole's, and on the other
/// axes both keep the whole's, then the pieces make each face of the whole exactly once.
#[repr(C)]
#[derive(Clone, Copy, Debug, Default, PartialEq, Eq)]
pub struct MaxPlane {
    /// Along x.
    pub x: bool,
    /// Along y.
    pub y: bool,
    /// Along z.
    pub z: bool,
}

impl MaxPlane {
    /// On no axis.
    pub const NONE: Self = Self {
        x: false,
        y: false,
        z: false,
    };

    /// On all three.
    pub const ALL: Self = Self {
        x: true,
        y: true,
        z: true,
    };
}

/// What a caller lends for writing. Positions, normals and cells take three numbers a vertex.
#[derive(Default)]
pub struct Lent<'a> {
    /// Where each vertex lies, in grid coordinates: three numbers a vertex.
    pub positions: &'a mut [f32],
    /// The gradient at each vertex, not of unit length: three numbers a vertex.
    pub normals: &'a mut [f32],
    /// The cell of each vertex, named by its lowest corner: three numbers a vertex.
    pub cells: &'a mut [u32],
    /// The grid index of each vertex's cell.
    pub strides: &'a mut [u32],
    /// How many of the twelve edges of each vertex's cell the surface crosses: 3 to 9, or 12.
    pub crossings: &'a mut [u8],
    /// At least as long as the grid. The entry of each point of the box is written: a cell's vertex number,
    /// and 4,294,967,295 for a cell without one and a point that is no cell. Entries outside the box are kept.
    pub stride_to_index: &'a mut [u32],
    /// Triangles, three vertex numbers each.
    pub indices: &'a mut [u32],
}

/// Meshes the box from `min` to `max`, both included, of a grid with the given dimensions, x innermost.
///
/// On success the first 3V, 3V, 3V, V, V and I numbers of the lists are written and the rest of them kept.
/// A refused call changes nothing. The grid may hold f32, i16 or i8; see [`Distance`].
pub fn surface_nets_lent<D: Distance>(
    sdf: &[D],
    dims: [u32; 3],
    min: [u32; 3],
    max: [u32; 3],
    max_plane: MaxPlane,
    lent: &mut Lent,
) -> Result<Counts, Refusal> {
    let block = BedBox::new(dims, min, max, max_plane);
    let mut counts = Counts::default();
    let _environment = DefaultEnvironment::enter();
    // SAFETY: every pointer and length come from a slice, which is aligned and never null; the lent
    // slices are borrowed mutably apart from each other and from the grid, so nothing overlaps.
    let answer = unsafe {
        D::SURFACE_NETS(
            sdf.as_ptr(),
            sdf.len(),
            &block,
            lent.positions.as_mut_ptr(),
            lent.positions.len(),
            lent.normals.as_mut_ptr(),
            lent.normals.len(),
            lent.cells.as_mut_ptr(),
            lent.cells.len(),
            lent.strides.as_mut_ptr(),
            lent.strides.len(),
            lent.crossings.as_mut_ptr(),
            lent.crossings.len(),
            lent.stride_to_index.as_mut_ptr(),
            lent.stride_to_index.len(),
            lent.indices.as_mut_ptr(),
            lent.indices.len(),
            &mut counts.vertices,
            &mut counts.indices,
        )
    };
    Refusal::of(answer, counts)
}
