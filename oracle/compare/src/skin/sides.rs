//! The directed sides that a list of triangles shows, and how often each occurs.

use std::collections::HashMap;

#[derive(Default)]
pub struct Sides {
    often: HashMap<[u32; 2], u32>,
}

/// All three sides of each triangle.
pub fn sides(indices: &[u32]) -> Sides {
    let mut sides = Sides::default();
    for triangle in indices.chunks_exact(3) {
        sides.add(triangle);
    }
    sides
}

/// The four sides of each face of two triangles. The diagonal is the side whose reverse the face has too.
pub fn face_sides(indices: &[u32]) -> Sides {
    let mut all = Sides::default();
    for face in indices.chunks_exact(6) {
        let of_face = sides(face);
        for (&[a, b], &often) in &of_face.often {
            if of_face.often(b, a) == 0 {
                *all.often.entry([a, b]).or_default() += often;
            }
        }
    }
    all
}

impl Sides {
    fn add(&mut self, triangle: &[u32]) {
        for k in 0..3 {
            let side = [triangle[k], triangle[(k + 1) % 3]];
            *self.often.entry(side).or_default() += 1;
        }
    }

    pub fn often(&self, a: u32, b: u32) -> u32 {
        self.often.get(&[a, b]).copied().unwrap_or(0)
    }

    /// How many different directed sides there are.
    pub fn total(&self) -> u64 {
        self.often.len() as u64
    }

    /// How many of them occur more than once.
    pub fn repeated(&self) -> u64 {
        self.often.values().filter(|&&often| often > 1).count() as u64
    }

    /// How often the most frequent of them occurs.
    pub fn most(&self) -> u32 {
        self.often.values().copied().max().unwrap_or(0)
    }

    /// How many of them do not occur as often as their reverse.
    pub fn unmatched(&self) -> u64 {
        let sides = self.often.iter();
        sides
            .filter(|(&[a, b], &often)| self.often(b, a) != often)
            .count() as u64
    }
}
