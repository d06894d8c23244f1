//! Meshes between the library and files.

use crate::failure::Failure;
use bed::SurfaceNetsBuffer;
use std::fs;
use std::path::Path;

/// A mesh as lists, three numbers a vertex and a triangle.
pub struct Lists<'a> {
    pub positions: &'a [f32],
    pub normals: &'a [f32],
    pub indices: &'a [u32],
    /// Where the mesh came from a call: a mesh file has none.
    pub crossings: Option<&'a [u8]>,
}

/// A mesh read from a file.
#[derive(Default)]
pub struct Mesh {
    positions: Vec<f32>,
    normals: Vec<f32>,
    indices: Vec<u32>,
}

impl Mesh {
    pub fn lists(&self) -> Lists<'_> {
        Lists {
            positions: &self.positions,
            normals: &self.normals,
            indices: &self.indices,
            crossings: None,
        }
    }
}

pub fn of_call(buffer: &SurfaceNetsBuffer) -> Lists<'_> {
    Lists {
        positions: buffer.positions.as_flattened(),
        normals: buffer.normals.as_flattened(),
        indices: &buffer.indices,
        crossings: Some(&buffer.crossings),
    }
}

impl Lists<'_> {
    pub fn vertices(&self) -> usize {
        self.positions.len() / 3
    }

    pub fn triangles(&self) -> usize {
        self.indices.len() / 3
    }

    /// The bytes of the mesh file that will be written to this name.
    pub fn file(&self, name: &Path) -> Result<Vec<u8>, Failure> {
        let mut file = vec![0; bed::file_len(self.vertices(), self.triangles())];
        bed::write_mesh(self.positions, self.normals, self.indices, &mut file)
            .map_err(|refusal| Failure::refused(name.display(), refusal.number(), refusal))?;
        Ok(file)
    }
}

/// The bytes of a mesh file and what the library counts in them.
pub fn checked(name: &Path) -> Result<(Vec<u8>, bed::FileCounts), Failure> {
    let file = fs::read(name).map_err(|error| Failure::file(name, error))?;
    let counts = bed::check_mesh(&file)
        .map_err(|refusal| Failure::refused(name.display(), refusal.number(), refusal))?;
    Ok((file, counts))
}

pub fn read(name: &Path) -> Result<Mesh, Failure> {
    let (file, counts) = checked(name)?;
    let (vertices, triangles) = (counts.vertices as usize, counts.triangles as usize);
    let mut mesh = Mesh {
        positions: vec![0.0; 3 * vertices],
        normals: vec![0.0; 3 * vertices],
        indices: vec![0; 3 * triangles],
    };
    bed::read_mesh(
        &file,
        &mut mesh.positions,
        &mut mesh.normals,
        &mut mesh.indices,
    )
    .map_err(|refusal| Failure::refused(name.display(), refusal.number(), refusal))?;
    Ok(mesh)
}
