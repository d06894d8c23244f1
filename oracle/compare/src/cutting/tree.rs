//! A box that is cut, its pieces cut again: any axis, any place, to a depth of four.

use crate::calls::OwnCall;
use crate::random::Random;
use oracle::call::{Call, MaxPlane};

const DEEPEST: u32 = 4;

/// A box and its flags.
#[derive(Clone, Copy, Debug)]
pub struct Piece {
    pub min: [u32; 3],
    pub max: [u32; 3],
    pub max_plane: MaxPlane,
}

impl Piece {
    pub fn whole(call: &OwnCall) -> Self {
        Self {
            min: call.min,
            max: call.max,
            max_plane: call.max_plane,
        }
    }

    /// The call for this piece, on the grid of the whole.
    pub fn call<'a>(&self, whole: &'a OwnCall) -> Call<'a> {
        Call {
            min: self.min,
            max: self.max,
            max_plane: self.max_plane,
            ..whole.view()
        }
    }

    /// The lower and the upper piece of a cut.
    fn cut(&self, axis: usize, k: u32, rule: Rule) -> [Self; 2] {
        let (mut lower, mut upper) = (*self, *self);
        lower.max[axis] = k + 1;
        upper.min[axis] = k;
        if rule != Rule::LowerKeeps {
            lower.max_plane.0[axis] = false;
        }
        if rule == Rule::UpperOff {
            upper.max_plane.0[axis] = false;
        }
        [lower, upper]
    }
}

/// Which flags the pieces get on the cut axis; on the other axes both keep the whole's.
#[derive(Clone, Copy, PartialEq, Eq)]
pub enum Rule {
    /// The lower piece's off, the upper's as the whole's.
    Request4,
    /// Wrong: both as the whole's.
    LowerKeeps,
    /// Wrong: both off.
    UpperOff,
}

#[derive(Debug)]
pub enum Tree {
    Leaf,
    Cut {
        axis: usize,
        k: u32,
        pieces: [Box<Tree>; 2],
    },
}

impl Tree {
    /// A tree with one cut at least; none where the box is a single point.
    pub fn of_a_cut(random: &mut Random, whole: &Piece) -> Option<Self> {
        match Self::grown(random, whole, 0) {
            Tree::Leaf => None,
            tree => Some(tree),
        }
    }

    /// The root is cut wherever it can be, and every other piece three times of four.
    fn grown(random: &mut Random, piece: &Piece, depth: u32) -> Self {
        let long: Vec<usize> = (0..3).filter(|&a| piece.min[a] < piece.max[a]).collect();
        if long.is_empty() || depth == DEEPEST || depth > 0 && random.one_in(4) {
            return Tree::Leaf;
        }
        let axis = random.pick(&long);
        let k = random.coordinate(piece.min[axis], piece.max[axis] - 1);
        let pieces = piece
            .cut(axis, k, Rule::Request4)
            .map(|piece| Box::new(Self::grown(random, &piece, depth + 1)));
        Tree::Cut { axis, k, pieces }
    }

    /// The leaves as pieces of a whole.
    pub fn pieces(&self, whole: &Piece, rule: Rule) -> Vec<Piece> {
        match self {
            Tree::Leaf => vec![*whole],
            Tree::Cut { axis, k, pieces } => {
                let halves = whole.cut(*axis, *k, rule);
                let below = pieces.iter().zip(&halves);
                below
                    .flat_map(|(tree, half)| tree.pieces(half, rule))
                    .collect()
            }
        }
    }

    /// Adds the cuts on each axis.
    pub fn count_cuts(&self, cuts: &mut [u64; 3]) {
        if let Tree::Cut { axis, pieces, .. } = self {
            cuts[*axis] += 1;
            pieces.iter().for_each(|piece| piece.count_cuts(cuts));
        }
    }
}
