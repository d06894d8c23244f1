//! Runs the published Rust on a call, and beside it the plain model of the faces, of the map's last points and of the number of crossings.

use crate::call::{Call, MaxPlane};
use crate::faces::{index_list, Vertices};
use crate::model::{corners, crossings, index, no_cells};
use ndshape::RuntimeShape;

/// The Rust's buffers after a call, in the Rust's own shapes, and the number of crossings of each vertex's cell, which
/// the Rust does not say (document 02, request 13).
#[derive(Default)]
pub struct Mesh {
    pub positions: Vec<[f32; 3]>,
    pub normals: Vec<[f32; 3]>,
    pub indices: Vec<u32>,
    pub surface_points: Vec<[u32; 3]>,
    pub surface_strides: Vec<u32>,
    pub crossings: Vec<u8>,
    pub stride_to_index: Vec<u32>,
}

impl Mesh {
    /// Runs the Rust over this mesh, as a caller who reuses a buffer does, on an accepted call.
    /// `stride_to_index` holds the old numbers before and the new ones after.
    ///
    /// Both builds are run, and the model must make the index list of each. The list is then that of the
    /// build that fits the call's flags, or, for one or two of them, the model's. The map is the Rust's, with
    /// 4,294,967,295 at each point of the box that is no cell (document 02, request 7), where the Rust keeps
    /// the old number. The crossings are counted by the model over the same cells.
    ///
    /// # Panics
    ///
    /// If the model's list for all flags or for none is not the Rust's.
    pub fn run(&mut self, call: &Call) {
        self.run_with_max_plane(call);
        let all = self.agreed(&call.with(MaxPlane::ALL));
        self.run_without_max_plane(call);
        let none = self.agreed(&call.with(MaxPlane::NONE));
        self.indices = match call.max_plane {
            MaxPlane::ALL => all,
            MaxPlane::NONE => none,
            _ => self.modelled(call),
        };
        let count = |&cell: &[u32; 3]| crossings(&corners(call, cell)) as u8;
        self.crossings = self.surface_points.iter().map(count).collect();
        for point in no_cells(call) {
            self.stride_to_index[index(call, point) as usize] = u32::MAX;
        }
    }

    /// Runs the Rust without max plane and nothing beside it, on a call that may be a bad one.
    pub fn run_alone(&mut self, call: &Call) {
        self.run_without_max_plane(call);
    }

    fn modelled(&self, call: &Call) -> Vec<u32> {
        let vertices = Vertices {
            cells: &self.surface_points,
            positions: &self.positions,
        };
        index_list(call, vertices)
    }

    /// The Rust's list, which the model must make too.
    fn agreed(&mut self, call: &Call) -> Vec<u32> {
        assert!(
            self.modelled(call) == self.indices,
            "the model makes other faces than the Rust: dimensions {:?}, box {:?} to {:?}, {:?}",
            call.dims,
            call.min,
            call.max,
            call.max_plane
        );
        std::mem::take(&mut self.indices)
    }
}

/// The two builds have buffer types of their own with the same fields: one run for each.
macro_rules! run_in {
    ($name:ident, $build:ident) => {
        impl Mesh {
            fn $name(&mut self, call: &Call) {
                let mut buffer = $build::SurfaceNetsBuffer {
                    positions: std::mem::take(&mut self.positions),
                    normals: std::mem::take(&mut self.normals),
                    indices: std::mem::take(&mut self.indices),
                    surface_points: std::mem::take(&mut self.surface_points),
                    surface_strides: std::mem::take(&mut self.surface_strides),
                    stride_to_index: std::mem::take(&mut self.stride_to_index),
                };
                let shape = RuntimeShape::new(call.dims);
                $build::surface_nets(call.grid, &shape, call.min, call.max, &mut buffer);
                *self = Self {
                    positions: buffer.positions,
                    normals: buffer.normals,
                    indices: buffer.indices,
                    surface_points: buffer.surface_points,
                    surface_strides: buffer.surface_strides,
                    crossings: std::mem::take(&mut self.crossings),
                    stride_to_index: buffer.stride_to_index,
                };
            }
        }
    };
}

run_in!(run_without_max_plane, original);
run_in!(run_with_max_plane, original_max_plane);
