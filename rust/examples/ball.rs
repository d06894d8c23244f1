//! Meshes a ball, takes the volume that its triangles enclose, keeps the mesh as a file and reads it back.
//!
//! `cargo run --example ball`, after `scripts/linked-library` at the top of the repository.

use bed::{
    file_len, is_enclosed, read_mesh, surface_nets, write_mesh, MaxPlane, SurfaceNetsBuffer,
};
use std::error::Error;

const SIDE: u32 = 20;
const MIDDLE: f32 = 9.5;
const RADIUS: f32 = 7.0;

fn main() -> Result<(), Box<dyn Error>> {
    let sdf = ball();
    let max = [SIDE - 1; 3];
    let mut mesh = SurfaceNetsBuffer::default();
    surface_nets(&sdf, [SIDE; 3], [0; 3], max, MaxPlane::NONE, &mut mesh)?;
    println!(
        "vertices {}, triangles {}, enclosed: {}",
        mesh.positions.len(),
        mesh.indices.len() / 3,
        is_enclosed(&sdf, [SIDE; 3], [0; 3], max)?
    );
    let of_the_ball = 4.0 / 3.0 * std::f64::consts::PI * f64::from(RADIUS).powi(3);
    println!(
        "volume {:.1}, the ball's own {of_the_ball:.1}",
        volume(&mesh)
    );
    println!("a file of {} bytes", kept_and_read_back(&mesh)?);
    Ok(())
}

fn ball() -> Vec<f32> {
    let square = |coordinate: u32| (coordinate as f32 - MIDDLE).powi(2);
    let mut sdf = Vec::new();
    for z in 0..SIDE {
        for y in 0..SIDE {
            sdf.extend((0..SIDE).map(|x| (square(x) + square(y) + square(z)).sqrt() - RADIUS));
        }
    }
    sdf
}

/// A sixth of the sum of the triangles' determinants: above zero, since triangles look outwards.
fn volume(mesh: &SurfaceNetsBuffer) -> f64 {
    let corner = |index: u32| mesh.positions[index as usize].map(f64::from);
    let determinant = |triangle: &[u32]| {
        let [a, b, c] = [triangle[0], triangle[1], triangle[2]].map(corner);
        a[0] * (b[1] * c[2] - b[2] * c[1])
            + a[1] * (b[2] * c[0] - b[0] * c[2])
            + a[2] * (b[0] * c[1] - b[1] * c[0])
    };
    mesh.indices.chunks_exact(3).map(determinant).sum::<f64>() / 6.0
}

/// Writes the mesh to bytes, reads it from them, and says how many there were.
fn kept_and_read_back(mesh: &SurfaceNetsBuffer) -> Result<usize, Box<dyn Error>> {
    let mut file = vec![0; file_len(mesh.positions.len(), mesh.indices.len() / 3)];
    write_mesh(
        mesh.positions.as_flattened(),
        mesh.normals.as_flattened(),
        &mesh.indices,
        &mut file,
    )?;
    let mut read = mesh.clone();
    read.positions.fill([0.0; 3]);
    read.normals.fill([0.0; 3]);
    read.indices.fill(0);
    read_mesh(
        &file,
        read.positions.as_flattened_mut(),
        read.normals.as_flattened_mut(),
        &mut read.indices,
    )?;
    if read == *mesh {
        Ok(file.len())
    } else {
        Err("the mesh came back otherwise".into())
    }
}
