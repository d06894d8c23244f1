//! PLY, which mesh viewers read: binary, lowest byte first, with positions, normals and, where the mesh came from a
//! call, crossings. Normals are the library's own, not of unit length.

use crate::failure::Failure;
use crate::kept::{Beside, Part};
use crate::mesh::Lists;
use std::path::Path;

pub fn written(lists: &Lists) -> Vec<u8> {
    let crossings = lists.crossings.is_some();
    let mut file = header(lists.vertices() as u64, lists.triangles() as u64, crossings);
    vertices(lists, &mut file);
    faces(lists, &mut file);
    file
}

fn header(vertices: u64, triangles: u64, crossings: bool) -> Vec<u8> {
    let crossings = if crossings {
        "property uchar crossings\n"
    } else {
        ""
    };
    let header = format!(
        "ply\nformat binary_little_endian 1.0\ncomment bed {}\n\
         element vertex {vertices}\n\
         property float x\nproperty float y\nproperty float z\n\
         property float nx\nproperty float ny\nproperty float nz\n{crossings}\
         element face {triangles}\nproperty list uchar uint vertex_indices\nend_header\n",
        env!("CARGO_PKG_VERSION")
    );
    header.into_bytes()
}

fn vertices(lists: &Lists, file: &mut Vec<u8>) {
    let corners = lists
        .positions
        .chunks_exact(3)
        .zip(lists.normals.chunks_exact(3));
    for (vertex, (position, normal)) in corners.enumerate() {
        let floats = position.iter().chain(normal);
        file.extend(floats.flat_map(|float| float.to_le_bytes()));
        file.extend(lists.crossings.map(|list| list[vertex]));
    }
}

fn faces(lists: &Lists, file: &mut Vec<u8>) {
    for triangle in lists.indices.chunks_exact(3) {
        file.push(3);
        file.extend(triangle.iter().flat_map(|index| index.to_le_bytes()));
    }
}

/// Bytes of a vertex with its crossings.
const VERTEX: u64 = 25;

/// A PLY whose mesh comes in parts, with crossings: all vertices stand before the first face, so that each part is
/// written at two places.
pub struct InParts {
    part: Part,
    vertices_at: u64,
    faces_at: u64,
    bytes: Vec<u8>,
}

impl InParts {
    /// Of a mesh of which this much will come.
    pub fn create(name: &Path, vertices: u64, triangles: u64) -> Result<Self, Failure> {
        let part = Part::create(name)?;
        let bytes = header(vertices, triangles, true);
        part.write_at(0, &bytes)?;
        let vertices_at = bytes.len() as u64;
        Ok(Self {
            part,
            vertices_at,
            faces_at: vertices_at + VERTEX * vertices,
            bytes,
        })
    }

    pub fn add(&mut self, lists: &Lists) -> Result<(), Failure> {
        self.bytes.clear();
        vertices(lists, &mut self.bytes);
        self.part.write_at(self.vertices_at, &self.bytes)?;
        self.vertices_at += self.bytes.len() as u64;
        self.bytes.clear();
        faces(lists, &mut self.bytes);
        self.part.write_at(self.faces_at, &self.bytes)?;
        self.faces_at += self.bytes.len() as u64;
        Ok(())
    }

    pub fn synced(self) -> Result<Beside, Failure> {
        self.part.synced()
    }
}
