//! Records of a mesh file (document 02, request 2), one after the other, for a mesh that is never in memory as a whole.

use crate::failure::Failure;
use crate::mesh::Lists;
use bed::write_record;

const RECORD: usize = 32;
/// So many are gathered before they go out.
const GATHERED: usize = 2048;

const VERTEX: u32 = 1;
const TRIANGLE: u32 = 2;
const CLOSING: u32 = 3;

/// What a file of records rests on, as the page says it.
pub const RESTS: &str = "proved: each record, and that the records of a mesh joined are its file; not proved: that this command hands them on in their order, since the mesh was never in memory as a whole";

/// Gathers records and hands their bytes on, many at a time. The last ones go out with [`finish`](Records::finish).
pub struct Records<Out> {
    gathered: Vec<u8>,
    length: usize,
    out: Out,
}

impl<Out: FnMut(&[u8]) -> Result<(), Failure>> Records<Out> {
    pub fn to(out: Out) -> Self {
        Self {
            gathered: vec![0; GATHERED * RECORD],
            length: 0,
            out,
        }
    }

    pub fn vertices(&mut self, lists: &Lists) -> Result<(), Failure> {
        let positions = lists.positions.chunks_exact(3);
        for (position, normal) in positions.zip(lists.normals.chunks_exact(3)) {
            let [x, y, z] = [position[0], position[1], position[2]].map(f32::to_bits);
            let [a, b, c] = [normal[0], normal[1], normal[2]].map(f32::to_bits);
            self.record([VERTEX, x, y, z, a, b, c])?;
        }
        Ok(())
    }

    pub fn triangles(&mut self, lists: &Lists) -> Result<(), Failure> {
        for triangle in lists.indices.chunks_exact(3) {
            let [a, b, c] = [triangle[0], triangle[1], triangle[2]];
            self.record([TRIANGLE, a, b, c, 0, 0, 0])?;
        }
        Ok(())
    }

    pub fn closing(&mut self, vertices: u32, triangles: u32) -> Result<(), Failure> {
        self.record([CLOSING, vertices, triangles, 0, 0, 0, 0])
    }

    fn record(&mut self, words: [u32; 7]) -> Result<(), Failure> {
        if self.length == self.gathered.len() {
            self.finish()?;
        }
        write_record(&mut self.gathered, self.length as u64, words)
            .map_err(|refusal| Failure::refused("a record", refusal.number(), refusal))?;
        self.length += RECORD;
        Ok(())
    }

    pub fn finish(&mut self) -> Result<(), Failure> {
        (self.out)(&self.gathered[..self.length])?;
        self.length = 0;
        Ok(())
    }
}

#[cfg(test)]
mod tests {
    use super::*;

    #[test]
    fn records_joined_are_the_library_s_file() {
        for triangles in [0, 1, 4, 3 * GATHERED] {
            let positions: Vec<f32> = (0..3 * 70).map(|number| number as f32 * 0.37).collect();
            let normals: Vec<f32> = positions.iter().map(|float| -1.0 / (float + 1.0)).collect();
            let indices: Vec<u32> = (0..3 * triangles as u32)
                .map(|number| number % 70)
                .collect();
            let lists = Lists {
                positions: &positions,
                normals: &normals,
                indices: &indices,
                crossings: None,
            };
            let mut joined = Vec::new();
            let mut records = Records::to(|bytes| {
                joined.extend_from_slice(bytes);
                Ok(())
            });
            records.vertices(&lists).unwrap();
            records.triangles(&lists).unwrap();
            records.closing(70, triangles as u32).unwrap();
            records.finish().unwrap();
            let mut file = vec![0; bed::file_len(70, triangles)];
            bed::write_mesh(&positions, &normals, &indices, &mut file).unwrap();
            assert!(joined == file, "{triangles} triangles");
        }
    }
}
