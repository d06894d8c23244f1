//! The C functions as `include/bed.h` declares them. They are to be called in the default floating-point
//! environment; the crate's other functions see to that themselves.

use crate::layers::Layers;
use crate::lent::MaxPlane;
use crate::plan::Block;

/// Dimensions, a box and its max plane as twelve words, as C's `struct bed_box` lies in memory. A flag is set by any word but 0.
#[repr(C)]
#[derive(Clone, Copy, Debug, Default, PartialEq, Eq)]
pub struct BedBox {
    /// The grid's dimensions.
    pub dims: [u32; 3],
    /// The box's lowest corner.
    pub min: [u32; 3],
    /// The box's highest corner.
    pub max: [u32; 3],
    /// The max plane on each axis.
    pub max_plane: [u32; 3],
}

impl BedBox {
    /// Dimensions alone.
    pub fn of(dims: [u32; 3]) -> Self {
        Self {
            dims,
            ..Self::default()
        }
    }

    /// Dimensions and a box.
    pub fn with(dims: [u32; 3], min: [u32; 3], max: [u32; 3]) -> Self {
        Self {
            min,
            max,
            ..Self::of(dims)
        }
    }

    /// Dimensions, a box and its max plane.
    pub fn new(dims: [u32; 3], min: [u32; 3], max: [u32; 3], max_plane: MaxPlane) -> Self {
        Self {
            max_plane: [max_plane.x, max_plane.y, max_plane.z].map(u32::from),
            ..Self::with(dims, min, max)
        }
    }
}

/// An edge at which blocks are no plan, as C's `struct bed_witness` lies in memory: its axis and its lowest point, and the numbers
/// of the first two blocks that own it, 4,294,967,295 for none.
#[repr(C)]
#[derive(Clone, Copy, Debug, Default, PartialEq, Eq)]
pub struct BedWitness {
    /// 0, 1 or 2 for x, y or z.
    pub axis: u32,
    /// The lowest point.
    pub at: [u32; 3],
    /// The first block that owns it.
    pub first: u32,
    /// The second.
    pub second: u32,
}

/// Three counts of a box's cells from the distances alone, as the library takes and leaves them.
#[repr(C)]
#[derive(Clone, Copy, Debug, Default, PartialEq, Eq)]
pub struct BedCounts {
    /// The cells whose eight corners are all below zero: they lie wholly in the sludge.
    pub whole: u64,
    /// V, the cells that the surface passes through.
    pub vertices: u64,
    /// I, six for each face.
    pub indices: u64,
}

extern "C" {
    /// The library's version as one number, major · 65536 + minor · 256 + patch.
    ///
    /// # Safety
    ///
    /// Nothing is lent.
    pub fn bed_version() -> u32;

    /// Meshes the box min..=max of a grid into lent buffers and returns the answer number, 0 to 7.
    ///
    /// # Safety
    ///
    /// Every pointer to a list is followed by the list's length, in elements. Nothing that may be written may
    /// overlap anything else. Every pointer must be aligned, and only that of a list of length 0 may be null.
    pub fn bed_surface_nets(
        sdf: *const f32,
        sdf_len: usize,
        block: *const BedBox,
        positions: *mut f32,
        positions_len: usize,
        normals: *mut f32,
        normals_len: usize,
        cells: *mut u32,
        cells_len: usize,
        strides: *mut u32,
        strides_len: usize,
        crossings: *mut u8,
        crossings_len: usize,
        stride_to_index: *mut u32,
        stride_to_index_len: usize,
        indices: *mut u32,
        indices_len: usize,
        vertex_count: *mut u64,
        index_count: *mut u64,
    ) -> u32;

    /// The answer number of [`bed_surface_nets`] with lists of these lengths, 0 to 7, and V and I.
    ///
    /// # Safety
    ///
    /// As above; the lengths are only compared.
    pub fn bed_answer(
        sdf: *const f32,
        sdf_len: usize,
        block: *const BedBox,
        positions_len: u64,
        normals_len: u64,
        cells_len: u64,
        strides_len: u64,
        crossings_len: u64,
        stride_to_index_len: u64,
        indices_len: u64,
        vertex_count: *mut u64,
        index_count: *mut u64,
    ) -> u32;

    /// [`bed_surface_nets`] over signed 16-bit distances, each meaning the float of the same value. It never answers 5.
    ///
    /// # Safety
    ///
    /// As above.
    pub fn bed_surface_nets_i16(
        sdf: *const i16,
        sdf_len: usize,
        block: *const BedBox,
        positions: *mut f32,
        positions_len: usize,
        normals: *mut f32,
        normals_len: usize,
        cells: *mut u32,
        cells_len: usize,
        strides: *mut u32,
        strides_len: usize,
        crossings: *mut u8,
        crossings_len: usize,
        stride_to_index: *mut u32,
        stride_to_index_len: usize,
        indices: *mut u32,
        indices_len: usize,
        vertex_count: *mut u64,
        index_count: *mut u64,
    ) -> u32;

    /// [`bed_surface_nets`] over signed 8-bit distances, each meaning the float of the same value. It never answers 5.
    ///
    /// # Safety
    ///
    /// As above.
    pub fn bed_surface_nets_i8(
        sdf: *const i8,
        sdf_len: usize,
        block: *const BedBox,
        positions: *mut f32,
        positions_len: usize,
        normals: *mut f32,
        normals_len: usize,
        cells: *mut u32,
        cells_len: usize,
        strides: *mut u32,
        strides_len: usize,
        crossings: *mut u8,
        crossings_len: usize,
        stride_to_index: *mut u32,
        stride_to_index_len: usize,
        indices: *mut u32,
        indices_len: usize,
        vertex_count: *mut u64,
        index_count: *mut u64,
    ) -> u32;

    /// The answer number of [`bed_surface_nets_i16`] with lists of these lengths, 0 to 4, 6 or 7, and V and I.
    ///
    /// # Safety
    ///
    /// As above; the lengths are only compared.
    pub fn bed_answer_i16(
        sdf: *const i16,
        sdf_len: usize,
        block: *const BedBox,
        positions_len: u64,
        normals_len: u64,
        cells_len: u64,
        strides_len: u64,
        crossings_len: u64,
        stride_to_index_len: u64,
        indices_len: u64,
        vertex_count: *mut u64,
        index_count: *mut u64,
    ) -> u32;

    /// The answer number of [`bed_surface_nets_i8`] with lists of these lengths, 0 to 4, 6 or 7, and V and I.
    ///
    /// # Safety
    ///
    /// As above; the lengths are only compared.
    pub fn bed_answer_i8(
        sdf: *const i8,
        sdf_len: usize,
        block: *const BedBox,
        positions_len: u64,
        normals_len: u64,
        cells_len: u64,
        strides_len: u64,
        crossings_len: u64,
        stride_to_index_len: u64,
        indices_len: u64,
        vertex_count: *mut u64,
        index_count: *mut u64,
    ) -> u32;

    /// Tests whether the box's points below zero all lie from min + 1 to max - 2, and returns the answer
    /// number, 0 to 3.
    ///
    /// # Safety
    ///
    /// As above; `enclosed` points to a `bool` that holds a value and is written on every answer.
    pub fn bed_is_enclosed(
        sdf: *const f32,
        sdf_len: usize,
        block: *const BedBox,
        enclosed: *mut bool,
    ) -> u32;

    /// [`bed_is_enclosed`] over signed 16-bit distances.
    ///
    /// # Safety
    ///
    /// As for [`bed_is_enclosed`].
    pub fn bed_is_enclosed_i16(
        sdf: *const i16,
        sdf_len: usize,
        block: *const BedBox,
        enclosed: *mut bool,
    ) -> u32;

    /// [`bed_is_enclosed`] over signed 8-bit distances.
    ///
    /// # Safety
    ///
    /// As for [`bed_is_enclosed`].
    pub fn bed_is_enclosed_i8(
        sdf: *const i8,
        sdf_len: usize,
        block: *const BedBox,
        enclosed: *mut bool,
    ) -> u32;

    /// [`bed_is_enclosed`] of one layer of X·Y distances, the layer `z` of the box, and returns the answer number, 0 to 3 or 77.
    ///
    /// # Safety
    ///
    /// As for [`bed_is_enclosed`]; `block` points to one, of which the max plane is not read.
    pub fn bed_is_enclosed_layer(
        layer: *const f32,
        layer_len: usize,
        block: *const BedBox,
        z: u32,
        enclosed: *mut bool,
    ) -> u32;

    /// [`bed_is_enclosed_layer`] over signed 16-bit distances.
    ///
    /// # Safety
    ///
    /// As for [`bed_is_enclosed_layer`].
    pub fn bed_is_enclosed_layer_i16(
        layer: *const i16,
        layer_len: usize,
        block: *const BedBox,
        z: u32,
        enclosed: *mut bool,
    ) -> u32;

    /// [`bed_is_enclosed_layer`] over signed 8-bit distances.
    ///
    /// # Safety
    ///
    /// As for [`bed_is_enclosed_layer`].
    pub fn bed_is_enclosed_layer_i8(
        layer: *const i8,
        layer_len: usize,
        block: *const BedBox,
        z: u32,
        enclosed: *mut bool,
    ) -> u32;

    /// Checks a list of blocks against a whole and returns the answer number: 0, 41 or 42.
    ///
    /// # Safety
    ///
    /// As above; `holds` points to a `bool` that holds a value and is written on every answer.
    pub fn bed_check_plan(
        blocks: *const Block,
        blocks_len: usize,
        min_x: u32,
        min_y: u32,
        min_z: u32,
        max_x: u32,
        max_y: u32,
        max_z: u32,
        max_plane_x: bool,
        max_plane_y: bool,
        max_plane_z: bool,
        holds: *mut bool,
    ) -> u32;

    /// The first edge at which blocks, twelve words each, are no plan, and returns the answer number: 0, 40 to 43.
    ///
    /// # Safety
    ///
    /// As above; `blocks_len` counts words, and `witness` is written on answer 0 alone.
    pub fn bed_plan_witness(
        blocks: *const u32,
        blocks_len: usize,
        whole: *const BedBox,
        witness: *mut BedWitness,
    ) -> u32;

    /// Writes the file of a mesh into lent bytes and returns the answer number: 0, 26, 27, 29 or 30.
    ///
    /// # Safety
    ///
    /// As for [`bed_surface_nets`], but what is only read may overlap itself.
    pub fn bed_write_mesh(
        positions: *const f32,
        positions_len: usize,
        normals: *const f32,
        normals_len: usize,
        indices: *const u32,
        indices_len: usize,
        file: *mut u8,
        file_len: usize,
        byte_count: *mut u64,
    ) -> u32;

    /// Writes one record, seven words and their sum, into lent bytes and returns the answer number: 0 or 29.
    ///
    /// # Safety
    ///
    /// As for [`bed_surface_nets`].
    pub fn bed_write_record(
        file: *mut u8,
        file_len: usize,
        at: u64,
        kind: u32,
        a: u32,
        b: u32,
        c: u32,
        d: u32,
        e: u32,
        f: u32,
    ) -> u32;

    /// Reads the mesh of a file into lent lists and returns the answer number: 0 or 21 to 29.
    ///
    /// # Safety
    ///
    /// As for [`bed_surface_nets`].
    pub fn bed_read_mesh(
        file: *const u8,
        file_len: usize,
        positions: *mut f32,
        positions_len: usize,
        normals: *mut f32,
        normals_len: usize,
        indices: *mut u32,
        indices_len: usize,
        vertex_count: *mut u64,
        triangle_count: *mut u64,
    ) -> u32;

    /// Checks a file and counts its mesh, and returns the answer number: 0 or 21 to 28.
    ///
    /// # Safety
    ///
    /// As for [`bed_surface_nets`].
    pub fn bed_check_mesh(
        file: *const u8,
        file_len: usize,
        vertex_count: *mut u64,
        triangle_count: *mut u64,
    ) -> u32;

    /// Cuts the solid of a fixture file out of a grid and returns the answer number: 0, 1, 3 or 51 to 56.
    ///
    /// # Safety
    ///
    /// As for [`bed_surface_nets`].
    pub fn bed_cut_fixtures(
        file: *const u8,
        file_len: usize,
        block: *const BedBox,
        sdf: *mut f32,
        sdf_len: usize,
    ) -> u32;

    /// Cuts the solid of a fixture file out of one layer of a grid and returns the answer number: 0, 1, 81, 3 or 51 to 56.
    ///
    /// # Safety
    ///
    /// As for [`bed_surface_nets`]; the box is never null.
    pub fn bed_cut_fixtures_layer(
        file: *const u8,
        file_len: usize,
        block: *const BedBox,
        z: u32,
        layer: *mut f32,
        layer_len: usize,
    ) -> u32;

    /// [`bed_cut_fixtures_layer`] of signed 16-bit distances, into floats; 82 where there is no room for them.
    ///
    /// # Safety
    ///
    /// As for [`bed_cut_fixtures_layer`].
    pub fn bed_cut_fixtures_layer_i16(
        file: *const u8,
        file_len: usize,
        layer: *const i16,
        layer_len: usize,
        block: *const BedBox,
        z: u32,
        out: *mut f32,
        out_len: usize,
    ) -> u32;

    /// [`bed_cut_fixtures_layer`] of signed 8-bit distances, into floats; 82 where there is no room for them.
    ///
    /// # Safety
    ///
    /// As for [`bed_cut_fixtures_layer`].
    pub fn bed_cut_fixtures_layer_i8(
        file: *const u8,
        file_len: usize,
        layer: *const i8,
        layer_len: usize,
        block: *const BedBox,
        z: u32,
        out: *mut f32,
        out_len: usize,
    ) -> u32;

    /// Six times the signed volume of a mesh, and the answer number: 0 or 61 to 64.
    ///
    /// # Safety
    ///
    /// As for [`bed_write_mesh`]; `volume` is written on every answer.
    pub fn bed_volume(
        positions: *const f32,
        positions_len: usize,
        indices: *const u32,
        indices_len: usize,
        volume: *mut i64,
    ) -> u32;

    /// Six times the volume between the triangles of a mesh of any size and the plane z = 0, in two words,
    /// twice their area seen from above, and the answer number: 0, 61, 63, 64, 75 or 76.
    ///
    /// # Safety
    ///
    /// As for [`bed_write_mesh`]; `sum_low`, `sum_high` and `shadow` are written on every answer.
    pub fn bed_weigh(
        positions: *const f32,
        positions_len: usize,
        first: u32,
        indices: *const u32,
        indices_len: usize,
        sum_low: *mut u64,
        sum_high: *mut i64,
        shadow: *mut i64,
    ) -> u32;

    /// Closes a grid by a border of the wall's value, and returns the answer number: 0, 1, 3, 72, 73 or 74.
    ///
    /// # Safety
    ///
    /// As for [`bed_surface_nets`]; of `block` only the dimensions are read.
    pub fn bed_close(
        sdf: *const f32,
        sdf_len: usize,
        block: *const BedBox,
        wall: f32,
        closed: *mut f32,
        closed_len: usize,
    ) -> u32;

    /// [`bed_close`] of signed 16-bit distances, into floats.
    ///
    /// # Safety
    ///
    /// As for [`bed_close`].
    pub fn bed_close_i16(
        sdf: *const i16,
        sdf_len: usize,
        block: *const BedBox,
        wall: f32,
        closed: *mut f32,
        closed_len: usize,
    ) -> u32;

    /// [`bed_close`] of signed 8-bit distances, into floats.
    ///
    /// # Safety
    ///
    /// As for [`bed_close`].
    pub fn bed_close_i8(
        sdf: *const i8,
        sdf_len: usize,
        block: *const BedBox,
        wall: f32,
        closed: *mut f32,
        closed_len: usize,
    ) -> u32;

    /// One layer of the closed grid; the answer number is 0, 1, 71, 3, 72, 73 or 74.
    ///
    /// # Safety
    ///
    /// As for [`bed_close`].
    pub fn bed_close_layer(
        layer: *const f32,
        layer_len: usize,
        block: *const BedBox,
        z: u32,
        wall: f32,
        closed: *mut f32,
        closed_len: usize,
    ) -> u32;

    /// [`bed_close_layer`] of signed 16-bit distances, into floats.
    ///
    /// # Safety
    ///
    /// As for [`bed_close`].
    pub fn bed_close_layer_i16(
        layer: *const i16,
        layer_len: usize,
        block: *const BedBox,
        z: u32,
        wall: f32,
        closed: *mut f32,
        closed_len: usize,
    ) -> u32;

    /// [`bed_close_layer`] of signed 8-bit distances, into floats.
    ///
    /// # Safety
    ///
    /// As for [`bed_close`].
    pub fn bed_close_layer_i8(
        layer: *const i8,
        layer_len: usize,
        block: *const BedBox,
        z: u32,
        wall: f32,
        closed: *mut f32,
        closed_len: usize,
    ) -> u32;

    /// The largest magnitude below zero of some distances, or what was found so far.
    ///
    /// # Safety
    ///
    /// As for [`bed_surface_nets`].
    pub fn bed_deepest(so_far: f32, sdf: *const f32, sdf_len: usize) -> f32;

    /// [`bed_deepest`] of signed 16-bit distances.
    ///
    /// # Safety
    ///
    /// As for [`bed_deepest`].
    pub fn bed_deepest_i16(so_far: f32, sdf: *const i16, sdf_len: usize) -> f32;

    /// [`bed_deepest`] of signed 8-bit distances.
    ///
    /// # Safety
    ///
    /// As for [`bed_deepest`].
    pub fn bed_deepest_i8(so_far: f32, sdf: *const i8, sdf_len: usize) -> f32;

    /// A wall that is far enough for a bed that lies so deep.
    ///
    /// # Safety
    ///
    /// Nothing is lent.
    pub fn bed_wall_for(deepest: f32) -> f32;

    /// The level of each column of a box, and the answer number: 0, 1, 2, 3, 5 or 78.
    ///
    /// # Safety
    ///
    /// As for [`bed_surface_nets`]; the flags of `block` do not matter.
    pub fn bed_levels(
        sdf: *const f32,
        sdf_len: usize,
        block: *const BedBox,
        levels: *mut f32,
        levels_len: usize,
    ) -> u32;

    /// [`bed_levels`] of signed 16-bit distances.
    ///
    /// # Safety
    ///
    /// As for [`bed_levels`].
    pub fn bed_levels_i16(
        sdf: *const i16,
        sdf_len: usize,
        block: *const BedBox,
        levels: *mut f32,
        levels_len: usize,
    ) -> u32;

    /// [`bed_levels`] of signed 8-bit distances.
    ///
    /// # Safety
    ///
    /// As for [`bed_levels`].
    pub fn bed_levels_i8(
        sdf: *const i8,
        sdf_len: usize,
        block: *const BedBox,
        levels: *mut f32,
        levels_len: usize,
    ) -> u32;

    /// The levels after one more layer, and the answer number: 0, 1, 2, 77, 3, 5 or 78.
    ///
    /// # Safety
    ///
    /// As for [`bed_levels`].
    pub fn bed_levels_layer(
        below: *const f32,
        below_len: usize,
        layer: *const f32,
        layer_len: usize,
        block: *const BedBox,
        z: u32,
        levels: *mut f32,
        levels_len: usize,
    ) -> u32;

    /// [`bed_levels_layer`] of signed 16-bit distances.
    ///
    /// # Safety
    ///
    /// As for [`bed_levels`].
    pub fn bed_levels_layer_i16(
        below: *const i16,
        below_len: usize,
        layer: *const i16,
        layer_len: usize,
        block: *const BedBox,
        z: u32,
        levels: *mut f32,
        levels_len: usize,
    ) -> u32;

    /// [`bed_levels_layer`] of signed 8-bit distances.
    ///
    /// # Safety
    ///
    /// As for [`bed_levels`].
    pub fn bed_levels_layer_i8(
        below: *const i8,
        below_len: usize,
        layer: *const i8,
        layer_len: usize,
        block: *const BedBox,
        z: u32,
        levels: *mut f32,
        levels_len: usize,
    ) -> u32;

    /// The cells of a box below and on the surface, counted, and the answer number: 0, 1, 2, 3 or 5.
    ///
    /// # Safety
    ///
    /// As for [`bed_surface_nets`].
    pub fn bed_tally(
        sdf: *const f32,
        sdf_len: usize,
        block: *const BedBox,
        counts: *mut BedCounts,
    ) -> u32;

    /// [`bed_tally`] of signed 16-bit distances.
    ///
    /// # Safety
    ///
    /// As for [`bed_tally`].
    pub fn bed_tally_i16(
        sdf: *const i16,
        sdf_len: usize,
        block: *const BedBox,
        counts: *mut BedCounts,
    ) -> u32;

    /// [`bed_tally`] of signed 8-bit distances.
    ///
    /// # Safety
    ///
    /// As for [`bed_tally`].
    pub fn bed_tally_i8(
        sdf: *const i8,
        sdf_len: usize,
        block: *const BedBox,
        counts: *mut BedCounts,
    ) -> u32;

    /// The counts after one more layer, and the answer number: 0, 1, 2, 91, 3, 5 or 92.
    ///
    /// # Safety
    ///
    /// As for [`bed_tally`].
    pub fn bed_tally_layer(
        below: *const f32,
        below_len: usize,
        layer: *const f32,
        layer_len: usize,
        block: *const BedBox,
        z: u32,
        counts: *mut BedCounts,
    ) -> u32;

    /// [`bed_tally_layer`] of signed 16-bit distances.
    ///
    /// # Safety
    ///
    /// As for [`bed_tally`].
    pub fn bed_tally_layer_i16(
        below: *const i16,
        below_len: usize,
        layer: *const i16,
        layer_len: usize,
        block: *const BedBox,
        z: u32,
        counts: *mut BedCounts,
    ) -> u32;

    /// [`bed_tally_layer`] of signed 8-bit distances.
    ///
    /// # Safety
    ///
    /// As for [`bed_tally`].
    pub fn bed_tally_layer_i8(
        below: *const i8,
        below_len: usize,
        layer: *const i8,
        layer_len: usize,
        block: *const BedBox,
        z: u32,
        counts: *mut BedCounts,
    ) -> u32;

    /// Begins a bed that is taken layer by layer, and returns the answer number, 0, 1, 2 or 4.
    ///
    /// # Safety
    ///
    /// As above; `layers` points to a state, which is written on 0 alone. The kept memory is only measured.
    pub fn bed_layers_start(
        layers: *mut Layers,
        block: *const BedBox,
        kept_distances: *const f32,
        kept_distances_len: usize,
        kept_map: *const u32,
        kept_map_len: usize,
        kept_positions: *const f32,
        kept_positions_len: usize,
    ) -> u32;

    /// Takes one layer, and returns the answer number, 0 to 8.
    ///
    /// # Safety
    ///
    /// As above.
    pub fn bed_layers_offer(
        layers: *mut Layers,
        layer: *const f32,
        layer_len: usize,
        kept_distances: *mut f32,
        kept_distances_len: usize,
        kept_map: *mut u32,
        kept_map_len: usize,
        kept_positions: *mut f32,
        kept_positions_len: usize,
        positions: *mut f32,
        positions_len: usize,
        normals: *mut f32,
        normals_len: usize,
        cells: *mut u32,
        cells_len: usize,
        strides: *mut u32,
        strides_len: usize,
        crossings: *mut u8,
        crossings_len: usize,
        indices: *mut u32,
        indices_len: usize,
        vertex_count: *mut u64,
        index_count: *mut u64,
    ) -> u32;
}

/// The type of [`bed_surface_nets`], and of the same function over other distances.
pub type SurfaceNets<D> = unsafe extern "C" fn(
    *const D,
    usize,
    *const BedBox,
    *mut f32,
    usize,
    *mut f32,
    usize,
    *mut u32,
    usize,
    *mut u32,
    usize,
    *mut u8,
    usize,
    *mut u32,
    usize,
    *mut u32,
    usize,
    *mut u64,
    *mut u64,
) -> u32;

/// The type of [`bed_answer`], and of the same function over other distances.
pub type Answer<D> = unsafe extern "C" fn(
    *const D,
    usize,
    *const BedBox,
    u64,
    u64,
    u64,
    u64,
    u64,
    u64,
    u64,
    *mut u64,
    *mut u64,
) -> u32;

/// The type of [`bed_is_enclosed`], and of the same function over other distances.
pub type IsEnclosed<D> = unsafe extern "C" fn(*const D, usize, *const BedBox, *mut bool) -> u32;

/// The type of [`bed_is_enclosed_layer`], and of the same function over other distances.
pub type IsEnclosedLayer<D> =
    unsafe extern "C" fn(*const D, usize, *const BedBox, u32, *mut bool) -> u32;

/// The type of [`bed_close`], and of the same function over other distances.
pub type Close<D> =
    unsafe extern "C" fn(*const D, usize, *const BedBox, f32, *mut f32, usize) -> u32;

/// The type of [`bed_close_layer`], and of the same function over other distances.
pub type CloseLayer<D> =
    unsafe extern "C" fn(*const D, usize, *const BedBox, u32, f32, *mut f32, usize) -> u32;

/// The type of [`bed_cut_fixtures_layer_i16`], and of the same function over other whole numbers.
pub type CutLayerInto<W> = unsafe extern "C" fn(
    *const u8,
    usize,
    *const W,
    usize,
    *const BedBox,
    u32,
    *mut f32,
    usize,
) -> u32;

/// The type of [`bed_deepest`], and of the same function over other distances.
pub type Deepest<D> = unsafe extern "C" fn(f32, *const D, usize) -> f32;

/// The type of [`bed_levels`], and of the same function over other distances.
pub type Levels<D> = unsafe extern "C" fn(*const D, usize, *const BedBox, *mut f32, usize) -> u32;

/// The type of [`bed_levels_layer`], and of the same function over other distances.
pub type LevelsLayer<D> = unsafe extern "C" fn(
    *const D,
    usize,
    *const D,
    usize,
    *const BedBox,
    u32,
    *mut f32,
    usize,
) -> u32;

/// The type of [`bed_tally`], and of the same function over other distances.
pub type Tally<D> = unsafe extern "C" fn(*const D, usize, *const BedBox, *mut BedCounts) -> u32;

/// The type of [`bed_tally_layer`], and of the same function over other distances.
pub type TallyLayer<D> = unsafe extern "C" fn(
    *const D,
    usize,
    *const D,
    usize,
    *const BedBox,
    u32,
    *mut BedCounts,
) -> u32;
