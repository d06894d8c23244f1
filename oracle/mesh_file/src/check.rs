//! One call of the proved library beside the reading: the same answer, counts and numbers, and marks
//! everywhere else. Floats are lent as words with their bits.

use crate::marked::Marked;
use crate::reading::{self, Mesh};
use bed::raw::{bed_check_mesh, bed_read_mesh, bed_write_mesh};

const WORD: u32 = 0x4D41_524B;
const BYTE: u8 = 0xA5;
const COUNT: u64 = 77;

/// The room lent for reading, in elements.
#[derive(Clone, Copy)]
pub struct Room {
    pub positions: usize,
    pub normals: usize,
    pub indices: usize,
}

impl Room {
    pub fn for_mesh(mesh: &Mesh, more: usize) -> Self {
        Self {
            positions: mesh.positions.len() + more,
            normals: mesh.normals.len() + more,
            indices: mesh.indices.len() + more,
        }
    }

    fn is_short(&self, mesh: &Mesh) -> bool {
        self.positions < mesh.positions.len()
            || self.normals < mesh.normals.len()
            || self.indices < mesh.indices.len()
    }
}

/// What was answered, and whether all was as the reading says.
pub struct Outcome {
    pub answer: u32,
    pub agrees: bool,
}

pub fn read(file: &[u8], room: Room) -> Outcome {
    let (answer, mesh) = match reading::read(file) {
        Err(answer) => (answer, Mesh::default()),
        Ok(mesh) if room.is_short(&mesh) => (reading::ROOM, Mesh::default()),
        Ok(mesh) => (0, mesh),
    };
    let mut positions = Marked::of(room.positions, WORD);
    let mut normals = Marked::of(room.normals, WORD);
    let mut indices = Marked::of(room.indices, WORD);
    let (mut vertices, mut triangles) = (COUNT, COUNT);
    // SAFETY: each pointer and length come from one slice; the lent ones are apart from each other and
    // from the file; u32 and f32 have the same size and alignment and no invalid bit pattern.
    let got = unsafe {
        bed_read_mesh(
            file.as_ptr(),
            file.len(),
            positions.lent().as_mut_ptr().cast(),
            room.positions,
            normals.lent().as_mut_ptr().cast(),
            room.normals,
            indices.lent().as_mut_ptr(),
            room.indices,
            &mut vertices,
            &mut triangles,
        )
    };
    let counts = (
        mesh.positions.len() as u64 / 3,
        mesh.indices.len() as u64 / 3,
    );
    Outcome {
        answer,
        agrees: got == answer
            && (vertices, triangles) == counts
            && positions.holds(&mesh.positions)
            && normals.holds(&mesh.normals)
            && indices.holds(&mesh.indices),
    }
}

/// The check, which lends nothing: the reading's answer, room apart, and the counts.
pub fn check(file: &[u8]) -> Outcome {
    let (answer, mesh) = match reading::read(file) {
        Err(answer) => (answer, Mesh::default()),
        Ok(mesh) => (0, mesh),
    };
    let mut counts = Marked::of(2, COUNT);
    let [vertices, triangles] = counts.lent() else {
        unreachable!("two were lent")
    };
    // SAFETY: the pointer and the length come from one slice; the counts are apart from it and each other.
    let got = unsafe { bed_check_mesh(file.as_ptr(), file.len(), vertices, triangles) };
    let wanted = [mesh.positions.len(), mesh.indices.len()].map(|length| length as u64 / 3);
    Outcome {
        answer,
        agrees: got == answer && counts.holds(&wanted),
    }
}

pub fn write(mesh: &Mesh, room: usize) -> Outcome {
    let (answer, wanted) = match reading::write(mesh, room) {
        Err(answer) => (answer, Vec::new()),
        Ok(file) => (0, file),
    };
    let mut file = Marked::of(room, BYTE);
    let mut bytes = COUNT;
    // SAFETY: as above; what is only read is borrowed for the call.
    let got = unsafe {
        bed_write_mesh(
            mesh.positions.as_ptr().cast(),
            mesh.positions.len(),
            mesh.normals.as_ptr().cast(),
            mesh.normals.len(),
            mesh.indices.as_ptr(),
            mesh.indices.len(),
            file.lent().as_mut_ptr(),
            room,
            &mut bytes,
        )
    };
    Outcome {
        answer,
        agrees: got == answer && bytes == wanted.len() as u64 && file.holds(&wanted),
    }
}
