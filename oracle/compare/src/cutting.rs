//! Document 02, request 4, counted on meshes of the library: boxes with any flags are cut again and again, and
//! the pieces' faces are the whole's, each once. With a wrong flag at the cuts some face is made twice, or not
//! at all, which must show.

mod tree;

use crate::calls::{accepted, OwnCall};
use crate::fields::FIELDS;
use crate::random::Random;
use crate::wrapper::wrapped;
use bed::{surface_nets, SurfaceNetsBuffer};
use oracle::model::face_count;
use tree::{Piece, Rule, Tree};

const SEED: u64 = 0x0C07_5EED;
const TREES_A_FIELD: u32 = 3_000;
const LONGEST: u32 = 8;

/// Trees with a face in the whole that a full run must reach.
const ENOUGH: u64 = 10_000;

/// A face by its six corners, each the cell, the bits of the position and the number of crossings of its vertex.
type Face = [[u32; 7]; 6];

/// What was counted.
#[derive(Default)]
struct Tally {
    trees: u64,
    with_face: u64,
    flags: [u64; 8],
    cuts: [u64; 3],
    pieces: u64,
    faces: u64,
    lower_kept: u64,
    upper_off: u64,
    wrong: u64,
}

/// Cuts all boxes and prints what was counted. True if the law holds for each, enough were cut, and the wrong
/// flags show.
pub fn run() -> bool {
    let mut random = Random::new(SEED);
    let mut tally = Tally::default();
    let mut buffer = SurfaceNetsBuffer::default();
    for field in &FIELDS {
        for _ in 0..TREES_A_FIELD {
            let call = accepted(&mut random, field, LONGEST);
            let whole = Piece::whole(&call);
            if let Some(tree) = Tree::of_a_cut(&mut random, &whole) {
                tally.count(&call, &whole, &tree, &mut buffer);
            }
        }
    }
    tally.print();
    let each_came_up = tally.flags.iter().chain(&tally.cuts).all(|&n| n > 0);
    let wrong_flags_show = tally.lower_kept > 0 && tally.upper_off > 0;
    tally.wrong == 0 && tally.with_face >= ENOUGH && each_came_up && wrong_flags_show
}

impl Tally {
    fn count(
        &mut self,
        call: &OwnCall,
        whole: &Piece,
        tree: &Tree,
        buffer: &mut SurfaceNetsBuffer,
    ) {
        let mut faces_of = |pieces: &[Piece]| faces(call, pieces, buffer);
        let pieces = tree.pieces(whole, Rule::Request4);
        let of_the_whole = faces_of(std::slice::from_ref(whole));
        self.trees += 1;
        self.with_face += u64::from(!of_the_whole.is_empty());
        self.flags[whole.max_plane.word() as usize] += u64::from(!of_the_whole.is_empty());
        tree.count_cuts(&mut self.cuts);
        self.pieces += pieces.len() as u64;
        self.faces += of_the_whole.len() as u64;

        let counted: u64 = pieces.iter().map(|p| face_count(&p.call(call))).sum();
        let as_many_as_edges = of_the_whole.len() as u64 == face_count(&whole.call(call))
            && of_the_whole.len() as u64 == counted;
        let the_same = faces_of(&pieces) == of_the_whole;
        if has_double(&of_the_whole) || !the_same || !as_many_as_edges {
            self.wrong += 1;
            if self.wrong <= 5 {
                println!("WRONG: dimensions {:?}, {whole:?}, {tree:?}", call.dims);
            }
        }

        let kept = faces_of(&tree.pieces(whole, Rule::LowerKeeps));
        self.lower_kept += u64::from(has_double(&kept));
        let off = faces_of(&tree.pieces(whole, Rule::UpperOff));
        self.upper_off += u64::from(off.len() < of_the_whole.len());
    }

    fn print(&self) {
        println!(
            "cut trees of random boxes: {}, {} with a face, {} pieces; cuts on x, y, z: {:?}",
            self.trees, self.with_face, self.pieces, self.cuts
        );
        println!(
            "    with a face by max plane, 1 for x, 2 for y, 4 for z: {:?}",
            self.flags
        );
        println!(
            "    faces of the wholes {}; trees whose pieces make others, or not as many as edges owned: {}",
            self.faces, self.wrong
        );
        println!(
            "    the same with the lower piece's flag kept: {} trees with a face twice; with the upper's off: {} with a face lost",
            self.lower_kept, self.upper_off
        );
    }
}

/// The faces of these pieces, meshed one after the other, in an order that does not depend on theirs.
fn faces(call: &OwnCall, pieces: &[Piece], buffer: &mut SurfaceNetsBuffer) -> Vec<Face> {
    let mut all = Vec::new();
    for piece in pieces {
        surface_nets(
            &call.grid,
            call.dims,
            piece.min,
            piece.max,
            wrapped(piece.max_plane),
            buffer,
        )
        .expect("a piece of an accepted box is accepted");
        all.extend(
            buffer
                .indices
                .chunks_exact(6)
                .map(|face| looked_up(face, buffer)),
        );
    }
    all.sort_unstable();
    all
}

/// Each of a face's indices, looked up in the lists of its own call.
fn looked_up(face: &[u32], buffer: &SurfaceNetsBuffer) -> Face {
    std::array::from_fn(|corner| {
        let vertex = face[corner] as usize;
        let [x, y, z] = buffer.surface_points[vertex];
        let [px, py, pz] = buffer.positions[vertex].map(f32::to_bits);
        [x, y, z, px, py, pz, buffer.crossings[vertex].into()]
    })
}

fn has_double(sorted: &[Face]) -> bool {
    sorted.windows(2).any(|pair| pair[0] == pair[1])
}
