//! A bed taken layer by layer (document 02, request 1): no grid is held, only two layers of it.

use crate::environment::DefaultEnvironment;
use crate::lent::{Counts, MaxPlane};
use crate::raw::{bed_layers_offer, bed_layers_start, BedBox};
use std::fmt;

/// Where a bed stands between two layers: plain numbers, which may be copied, stored and sent on. Whatever
/// numbers stand here, an offer stays within the lists that are lent to it.
#[repr(C)]
#[derive(Clone, Copy, Debug, Default, PartialEq, Eq)]
pub struct Layers {
    /// The grid's dimensions, as they were given to the start.
    pub dims: [u32; 3],
    /// The box's lowest point.
    pub min: [u32; 3],
    /// The box's highest point, which belongs to it.
    pub max: [u32; 3],
    /// The max plane for each axis: 0 is no, any other number is yes.
    pub max_plane: [u32; 3],
    /// How many layers were taken.
    pub taken: u32,
    /// The number of the next vertex.
    pub next: u32,
    /// The number of the first vertex of the last layer of cells.
    pub first: u32,
}

/// What a caller lends from the start to the last layer.
#[derive(Default)]
pub struct Kept<'a> {
    /// At least 2·X·Y long: two layers.
    pub distances: &'a mut [f32],
    /// At least 2·X·Y long: the map of two layers.
    pub map: &'a mut [u32],
    /// At least 3·X·Y long: the positions of the last layer of cells.
    pub positions: &'a mut [f32],
}

/// What a caller lends for what one layer brings out.
#[derive(Default)]
pub struct LayerLent<'a> {
    /// Three numbers a vertex, in grid coordinates.
    pub positions: &'a mut [f32],
    /// Three numbers a vertex, not of unit length.
    pub normals: &'a mut [f32],
    /// Three numbers a vertex: its cell.
    pub cells: &'a mut [u32],
    /// The index of each vertex's cell in the whole grid.
    pub strides: &'a mut [u32],
    /// How many of the twelve edges of each vertex's cell the surface crosses.
    pub crossings: &'a mut [u8],
    /// Triangles, three vertex numbers each; the numbers run on from layer to layer.
    pub indices: &'a mut [u32],
}

/// Why a start or a layer was refused, in the order in which a layer's conditions are tried. A refusal changes
/// nothing, so that the same layer can be offered again.
#[derive(Clone, Copy, Debug, PartialEq, Eq)]
pub enum LayerRefusal {
    /// 1: a dimension is 0 or above 16,777,217, or their product is above 1,073,741,824.
    Dimensions,
    /// 2: min is above max on an axis, or max is not below its dimension.
    Box,
    /// 8: as many layers were taken as the box has points in z.
    Finished,
    /// 3: the layer's length is not X·Y.
    LayerLength,
    /// 4: the kept memory is shorter than [`Kept`] says.
    MemoryShort,
    /// 5: a distance of the layer inside the box is not finite or above 2^124 in magnitude.
    Distance,
    /// 6: positions, normals, cells, strides or crossings have no room for the layer's vertices.
    VerticesShort(Counts),
    /// 7: indices have no room for the layer's faces.
    IndicesShort(Counts),
}

impl LayerRefusal {
    /// The answer number, 1 to 8.
    pub fn number(self) -> u32 {
        match self {
            LayerRefusal::Dimensions => 1,
            LayerRefusal::Box => 2,
            LayerRefusal::LayerLength => 3,
            LayerRefusal::MemoryShort => 4,
            LayerRefusal::Distance => 5,
            LayerRefusal::VerticesShort(_) => 6,
            LayerRefusal::IndicesShort(_) => 7,
            LayerRefusal::Finished => 8,
        }
    }

    fn of(answer: u32, counts: Counts) -> Result<Counts, LayerRefusal> {
        match answer {
            0 => Ok(counts),
            1 => Err(LayerRefusal::Dimensions),
            2 => Err(LayerRefusal::Box),
            3 => Err(LayerRefusal::LayerLength),
            4 => Err(LayerRefusal::MemoryShort),
            5 => Err(LayerRefusal::Distance),
            6 => Err(LayerRefusal::VerticesShort(counts)),
            7 => Err(LayerRefusal::IndicesShort(counts)),
            8 => Err(LayerRefusal::Finished),
            _ => unreachable!("the library answers 0 to 8"),
        }
    }
}

impl fmt::Display for LayerRefusal {
    fn fmt(&self, out: &mut fmt::Formatter) -> fmt::Result {
        let words = match self {
            LayerRefusal::Dimensions => "a dimension or their product is out of range",
            LayerRefusal::Box => "the box does not fit the dimensions",
            LayerRefusal::Finished => "the box has no more layers",
            LayerRefusal::LayerLength => "the layer's length is not that of the dimensions",
            LayerRefusal::MemoryShort => "the kept memory is too short",
            LayerRefusal::Distance => "a distance of the layer is not finite or above 2^124",
            LayerRefusal::VerticesShort(_) => "no room for the layer's vertices",
            LayerRefusal::IndicesShort(_) => "no room for the layer's indices",
        };
        out.write_str(words)
    }
}

impl std::error::Error for LayerRefusal {}

impl Layers {
    /// Begins a bed. The kept memory is measured and not written.
    pub fn start(
        dims: [u32; 3],
        min: [u32; 3],
        max: [u32; 3],
        max_plane: MaxPlane,
        kept: &Kept,
    ) -> Result<Layers, LayerRefusal> {
        let block = BedBox::new(dims, min, max, max_plane);
        let mut layers = Layers::default();
        let _environment = DefaultEnvironment::enter();
        // SAFETY: the pointers and lengths come from slices, and `layers` is a variable of its own.
        let answer = unsafe {
            bed_layers_start(
                &mut layers,
                &block,
                kept.distances.as_ptr(),
                kept.distances.len(),
                kept.map.as_ptr(),
                kept.map.len(),
                kept.positions.as_ptr(),
                kept.positions.len(),
            )
        };
        LayerRefusal::of(answer, Counts::default()).map(|_| layers)
    }

    /// Offers the next layer, of X·Y distances. The layer z + 1 brings out all vertices and faces of the cells
    /// at z: the first 3V, 3V, 3V, V, V and I numbers of the lists are written.
    pub fn offer(
        &mut self,
        layer: &[f32],
        kept: &mut Kept,
        lent: &mut LayerLent,
    ) -> Result<Counts, LayerRefusal> {
        let mut counts = Counts::default();
        let _environment = DefaultEnvironment::enter();
        // SAFETY: the pointers and lengths come from slices that are borrowed apart from one another.
        let answer = unsafe {
            bed_layers_offer(
                self,
                layer.as_ptr(),
                layer.len(),
                kept.distances.as_mut_ptr(),
                kept.distances.len(),
                kept.map.as_mut_ptr(),
                kept.map.len(),
                kept.positions.as_mut_ptr(),
                kept.positions.len(),
                lent.positions.as_mut_ptr(),
                lent.positions.len(),
                lent.normals.as_mut_ptr(),
                lent.normals.len(),
                lent.cells.as_mut_ptr(),
                lent.cells.len(),
                lent.strides.as_mut_ptr(),
                lent.strides.len(),
                lent.crossings.as_mut_ptr(),
                lent.crossings.len(),
                lent.indices.as_mut_ptr(),
                lent.indices.len(),
                &mut counts.vertices,
                &mut counts.indices,
            )
        };
        LayerRefusal::of(answer, counts)
    }
}
