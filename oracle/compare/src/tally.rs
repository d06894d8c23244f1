//! What the calls of one kind covered, counted on the oracle's answers.

use oracle::call::Call;
use oracle::model::{corners, crossings, Verdict};
use oracle::published::Mesh;

/// The counts of one kind of calls, or of all.
#[derive(Clone, Default)]
pub struct Tally {
    pub answers: [u64; 8],
    pub with_face: u64,
    /// Accepted calls with a face, by their flags' word.
    pub flags: [u64; 8],
    pub vertices: u64,
    pub indices: u64,
    pub ties: u64,
    pub branches: [u64; 4],
    pub crossings: [u64; 13],
    pub differing: u64,
}

/// The numbers of crossings that a cell with 1 to 7 negative corners can have.
const POSSIBLE_CROSSINGS: [usize; 8] = [3, 4, 5, 6, 7, 8, 9, 12];

impl Tally {
    pub fn accepted(&self) -> u64 {
        self.answers[0]
    }

    pub fn refused(&self) -> u64 {
        self.answers[1..].iter().sum()
    }

    /// Counts a call by the oracle's verdict; `mesh` is the Rust's answer if that is 0.
    pub fn count(&mut self, call: &Call, verdict: &Verdict, mesh: &Mesh) {
        self.answers[verdict.answer as usize] += 1;
        if verdict.answer != 0 {
            return;
        }
        self.with_face += u64::from(verdict.indices > 0);
        self.flags[call.max_plane.word() as usize] += u64::from(verdict.indices > 0);
        self.vertices += verdict.vertices;
        self.indices += verdict.indices;
        for face in mesh.indices.chunks_exact(6) {
            self.count_face(face, mesh);
        }
        for &cell in &mesh.surface_points {
            self.crossings[crossings(&corners(call, cell))] += 1;
        }
    }

    /// Tells a face's branch from its six indices. The vertex at p1 has the highest number of the
    /// four; where it stands first the v1-v4 diagonal was taken, and the turn shows where the fourth
    /// vertex, met once in the second triangle, stands.
    fn count_face(&mut self, face: &[u32], mesh: &Mesh) {
        let highest = face.iter().max().expect("a face has six indices");
        let first_diagonal = face[0] == *highest;
        let negative_at_p1 = face[2] == face[4];
        self.branches[2 * usize::from(!first_diagonal) + usize::from(!negative_at_p1)] += 1;
        let ends = if negative_at_p1 {
            [face[0], face[2]]
        } else {
            [face[0], face[1]]
        };
        let others: Vec<u32> = face.iter().copied().filter(|v| !ends.contains(v)).collect();
        let taken = squared_distance(mesh, ends[0], ends[1]);
        let left = squared_distance(mesh, others[0], others[1]);
        self.ties += u64::from(taken == left);
    }

    pub fn add(&mut self, other: &Tally) {
        let sum = |mine: &mut [u64], theirs: &[u64]| {
            mine.iter_mut().zip(theirs).for_each(|(a, b)| *a += b);
        };
        sum(&mut self.answers, &other.answers);
        sum(&mut self.flags, &other.flags);
        sum(&mut self.branches, &other.branches);
        sum(&mut self.crossings, &other.crossings);
        self.with_face += other.with_face;
        self.vertices += other.vertices;
        self.indices += other.indices;
        self.ties += other.ties;
        self.differing += other.differing;
    }

    pub fn print(&self, name: &str) {
        println!("{name}");
        if self.accepted() > 0 {
            self.print_accepted();
        }
        if self.refused() > 0 {
            println!(
                "    refused {}, by answer 1 to 7: {:?}",
                self.refused(),
                &self.answers[1..]
            );
        }
        if self.differing > 0 {
            println!("    DIFFERENT: {} calls", self.differing);
        }
    }

    fn print_accepted(&self) {
        let [a, b, c, d] = self.branches;
        let crossings = POSSIBLE_CROSSINGS.map(|n| format!("{n}: {}", self.crossings[n]));
        println!(
            "    accepted {}, with a face {}, V {}, I {}",
            self.accepted(),
            self.with_face,
            self.vertices,
            self.indices
        );
        println!(
            "    tied diagonals {}; v1-v4 taken: p1 negative {a}, not {b}; v2-v3 taken: p1 negative {c}, not {d}",
            self.ties
        );
        println!(
            "    calls with a face by max plane, 1 for x, 2 for y, 4 for z: {:?}",
            self.flags
        );
        println!("    vertices by crossings {}", crossings.join(", "));
    }

    /// The names of totals that are 0 although a full run must bring them out.
    pub fn missing(&self) -> Vec<String> {
        let named = |name: &str, counts: &[u64]| -> Vec<(String, u64)> {
            let numbered = counts.iter().enumerate();
            numbered
                .map(|(i, &count)| (format!("{name} {i}"), count))
                .collect()
        };
        let mut totals = vec![
            ("calls with a face".to_string(), self.with_face),
            ("V".to_string(), self.vertices),
            ("I".to_string(), self.indices),
            ("tied diagonals".to_string(), self.ties),
        ];
        totals.extend(named("answer", &self.answers));
        totals.extend(named("max plane", &self.flags));
        totals.extend(named("branch", &self.branches));
        let by_crossings =
            POSSIBLE_CROSSINGS.map(|n| (format!("crossings {n}"), self.crossings[n]));
        totals.extend(by_crossings);
        let empty = totals.into_iter().filter(|(_, count)| *count == 0);
        empty.map(|(name, _)| name).collect()
    }
}

fn squared_distance(mesh: &Mesh, a: u32, b: u32) -> f32 {
    let [a, b] = [a, b].map(|v| mesh.positions[v as usize]);
    let [x, y, z]: [f32; 3] = std::array::from_fn(|k| (a[k] - b[k]) * (a[k] - b[k]));
    (x + y) + z
}
