//! The published Rust behind two C functions: mesh a whole grid into a kept buffer, and look at the mesh.
//!
//! The dimensions come in either as the program runs or as the compiler knows them; the original's own
//! example does the latter, and the bench measures both.

use ndshape::{ConstShape, RuntimeShape, Shape};
use original::{surface_nets, SurfaceNetsBuffer};
use std::cell::RefCell;

thread_local! {
    /// The buffer that all calls share: after the first call it is warm.
    static BUFFER: RefCell<SurfaceNetsBuffer> = RefCell::default();
}

/// Meshes a whole grid of `dims` points.
///
/// # Safety
///
/// `dims` points to three numbers and `sdf` to as many floats as their product.
#[no_mangle]
pub unsafe extern "C" fn original_mesh(sdf: *const f32, dims: *const u32, shape_is_constant: bool) {
    // SAFETY: the caller's promise.
    let dims: [u32; 3] = unsafe { *dims.cast() };
    let points = dims.iter().map(|&side| side as usize).product();
    // SAFETY: the caller's promise.
    let sdf = unsafe { std::slice::from_raw_parts(sdf, points) };
    let max = dims.map(|side| side - 1);
    BUFFER.with_borrow_mut(|buffer| match (shape_is_constant, dims) {
        (true, [34, 34, 34]) => mesh(sdf, &ConstShape::<34, 34, 34>, max, buffer),
        (true, [66, 66, 66]) => mesh(sdf, &ConstShape::<66, 66, 66>, max, buffer),
        (true, [130, 130, 130]) => mesh(sdf, &ConstShape::<130, 130, 130>, max, buffer),
        (true, [258, 258, 258]) => mesh(sdf, &ConstShape::<258, 258, 258>, max, buffer),
        (true, [129, 129, 65]) => mesh(sdf, &ConstShape::<129, 129, 65>, max, buffer),
        _ => mesh(sdf, &RuntimeShape::new(dims), max, buffer),
    });
}

#[inline]
fn mesh<S: Shape<3, Coord = u32>>(
    sdf: &[f32],
    shape: &S,
    max: [u32; 3],
    buffer: &mut SurfaceNetsBuffer,
) {
    surface_nets(sdf, shape, [0; 3], max, buffer);
}

/// The indices of the last mesh, behind `indices`, and their number.
///
/// # Safety
///
/// `indices` may be written; what it then points to is good until the next mesh.
#[no_mangle]
pub unsafe extern "C" fn original_indices(indices: *mut *const u32) -> usize {
    BUFFER.with_borrow(|buffer| {
        // SAFETY: the caller's promise.
        unsafe { *indices = buffer.indices.as_ptr() };
        buffer.indices.len()
    })
}
