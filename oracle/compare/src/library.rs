//! Calls the proved library on lent memory that is held as 32-bit patterns; the crossings, which are bytes, a word
//! each.

use bed::raw::{bed_surface_nets, BedBox};
use oracle::call::{Call, Lent};
use oracle::model::Verdict;

/// Bytes that are lent between marks.
struct Bytes {
    memory: Vec<u8>,
}

impl Bytes {
    const MARKS: [u8; 16] = [0xA5; 16];

    fn holding(words: &[u32]) -> Self {
        let numbers: Vec<u8> = words.iter().map(|&word| word as u8).collect();
        Self {
            memory: [&Self::MARKS[..], &numbers, &Self::MARKS].concat(),
        }
    }

    fn contents(&mut self) -> &mut [u8] {
        let end = self.memory.len() - Self::MARKS.len();
        &mut self.memory[Self::MARKS.len()..end]
    }

    /// Puts the bytes back.
    ///
    /// # Panics
    ///
    /// If a mark was changed.
    fn give_back(mut self, words: &mut [u32]) {
        for (word, byte) in words.iter_mut().zip(self.contents()) {
            *word = (*byte).into();
        }
        let marks = Self::MARKS;
        let kept = self.memory.starts_with(&marks) && self.memory.ends_with(&marks);
        assert!(kept, "a byte beside the crossings was changed");
    }
}

/// Runs the library. The counts begin as marks, so that a call that leaves them shows.
pub fn run(call: &Call, lent: Lent<&mut [u32]>) -> Verdict {
    let Call {
        grid,
        dims,
        min,
        max,
        max_plane,
    } = *call;
    // any word but 0 is a yes, whichever of its bits is set
    let [x, y, z] = max_plane.0.map(u32::from);
    let block = BedBox {
        dims,
        min,
        max,
        max_plane: [x, y << 31, z << 8],
    };
    let (mut vertices, mut indices) = (u64::MAX - 5, u64::MAX - 7);
    let mut crossings = Bytes::holding(lent.crossings);
    // SAFETY: each pointer and length come from one slice; the lent slices are borrowed apart from
    // each other; u32 and f32 have the same size and alignment and no invalid bit pattern.
    let answer = unsafe {
        bed_surface_nets(
            grid.as_ptr(),
            grid.len(),
            &block,
            lent.positions.as_mut_ptr().cast(),
            lent.positions.len(),
            lent.normals.as_mut_ptr().cast(),
            lent.normals.len(),
            lent.cells.as_mut_ptr(),
            lent.cells.len(),
            lent.strides.as_mut_ptr(),
            lent.strides.len(),
            crossings.contents().as_mut_ptr(),
            crossings.contents().len(),
            lent.map.as_mut_ptr(),
            lent.map.len(),
            lent.indices.as_mut_ptr(),
            lent.indices.len(),
            &mut vertices,
            &mut indices,
        )
    };
    crossings.give_back(lent.crossings);
    Verdict {
        answer,
        vertices,
        indices,
    }
}
