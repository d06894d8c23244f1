//! The answer alone: what a call would answer, and so how much to lend, with no list lent.

use crate::distance::Distance;
use crate::environment::DefaultEnvironment;
use crate::lent::{Counts, MaxPlane};
use crate::raw::BedBox;
use crate::refusal::Refusal;

/// The lengths of the seven lists of [`Lent`](crate::Lent), in elements.
#[derive(Clone, Copy, Debug, Default, PartialEq, Eq)]
pub struct LentLengths {
    /// Of [`Lent::positions`](crate::Lent::positions): three a vertex.
    pub positions: u64,
    /// Of [`Lent::normals`](crate::Lent::normals): three a vertex.
    pub normals: u64,
    /// Of [`Lent::cells`](crate::Lent::cells): three a vertex.
    pub cells: u64,
    /// Of [`Lent::strides`](crate::Lent::strides): one a vertex.
    pub strides: u64,
    /// Of [`Lent::crossings`](crate::Lent::crossings): one a vertex.
    pub crossings: u64,
    /// Of [`Lent::stride_to_index`](crate::Lent::stride_to_index): one a point of the grid.
    pub stride_to_index: u64,
    /// Of [`Lent::indices`](crate::Lent::indices): three a triangle.
    pub indices: u64,
}

impl LentLengths {
    /// Exactly what a mesh with these counts takes, and a map of so many entries.
    pub fn exactly(counts: Counts, grid: u64) -> Self {
        let three = 3 * counts.vertices;
        Self {
            positions: three,
            normals: three,
            cells: three,
            strides: counts.vertices,
            crossings: counts.vertices,
            stride_to_index: grid,
            indices: counts.indices,
        }
    }
}

/// What [`surface_nets_lent`](crate::surface_nets_lent) answers on this grid, box and max plane with lists of
/// these lengths. Nothing is lent and nothing written.
pub fn answer<D: Distance>(
    sdf: &[D],
    dims: [u32; 3],
    min: [u32; 3],
    max: [u32; 3],
    max_plane: MaxPlane,
    lengths: LentLengths,
) -> Result<Counts, Refusal> {
    let block = BedBox::new(dims, min, max, max_plane);
    let mut counts = Counts::default();
    let _environment = DefaultEnvironment::enter();
    // SAFETY: the pointer and the length come from a slice, which is aligned and never null; the counts are
    // apart from it and from each other.
    let answer = unsafe {
        D::ANSWER(
            sdf.as_ptr(),
            sdf.len(),
            &block,
            lengths.positions,
            lengths.normals,
            lengths.cells,
            lengths.strides,
            lengths.crossings,
            lengths.stride_to_index,
            lengths.indices,
            &mut counts.vertices,
            &mut counts.indices,
        )
    };
    Refusal::of(answer, counts)
}

/// V and I of the mesh of a box: with room for them and a map as long as the grid,
/// [`surface_nets_lent`](crate::surface_nets_lent) is done and says them again. What is refused here it refuses
/// too, however much is lent beside such a map.
///
/// ```
/// use bed::{Counts, MaxPlane};
///
/// let mut sdf = [1.0; 27];
/// sdf[13] = -1.0;
/// let counts = bed::counts(&sdf, [3; 3], [0; 3], [2; 3], MaxPlane::NONE);
/// assert_eq!(counts, Ok(Counts { vertices: 8, indices: 18 }));
/// ```
pub fn counts<D: Distance>(
    sdf: &[D],
    dims: [u32; 3],
    min: [u32; 3],
    max: [u32; 3],
    max_plane: MaxPlane,
) -> Result<Counts, Refusal> {
    let map_alone = LentLengths::exactly(Counts::default(), sdf.len() as u64);
    match answer(sdf, dims, min, max, max_plane, map_alone) {
        Err(Refusal::VerticesShort(counts) | Refusal::IndicesShort(counts)) => Ok(counts),
        other => other,
    }
}
