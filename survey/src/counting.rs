//! What the distances alone say of a bed's volume, counted here by code that shares nothing with the library.
//!
//! The bed is closed: every point beside the grid is taken as outside. Of the cells between points of the grid and around it, some have all
//! eight corners below zero and some one to seven; some edges change sign. The volume of the closed mesh lies between the first number and both
//! together, give or take a sixth of a cell for each such edge: that is proved of the library's own counts, which have to be these. A volume outside of
//! that is wrong, whoever worked it out.

/// Counts of a closed bed, layer by layer from the lowest up.
pub struct Counting {
    width: usize,
    depth: usize,
    /// The signs of the last layer, in a border of one point; before the first layer none is below zero.
    last: Vec<bool>,
    layers: u32,
    counts: Counts,
}

/// What was counted.
#[derive(Clone, Copy, Debug, Default, PartialEq)]
pub struct Counts {
    /// Cells whose eight corners are below zero.
    pub below: u64,
    /// Cells of the closed bed with one to seven.
    pub surface: u64,
    /// Those among them whose corners are all points of the grid.
    pub open_surface: u64,
    /// Edges that change sign.
    pub changes: u64,
    /// Points below zero.
    pub points: u64,
}

impl Counting {
    /// For layers of so many points in x and in y.
    pub fn of(width: usize, depth: usize) -> Self {
        Self {
            width,
            depth,
            last: vec![false; (width + 2) * (depth + 2)],
            layers: 0,
            counts: Counts::default(),
        }
    }

    /// Takes the next layer, x innermost.
    pub fn add(&mut self, layer: &[f32]) {
        assert_eq!(layer.len(), self.width * self.depth);
        let row = self.width + 2;
        let mut signs = vec![false; self.last.len()];
        for (y, distances) in layer.chunks_exact(self.width).enumerate() {
            let from = (y + 1) * row + 1;
            for (sign, &distance) in signs[from..from + self.width].iter_mut().zip(distances) {
                // not-a-number is not below zero; the mesher refuses it
                *sign = distance < 0.0;
                self.counts.points += u64::from(*sign);
            }
        }
        self.between(&signs);
        self.last = signs;
        self.layers += 1;
    }

    /// The counts with the layer above the last one, in which no point is below zero.
    pub fn finished(mut self) -> Counts {
        let above = vec![false; self.last.len()];
        // no cell above the last layer has all its corners in the grid
        self.layers = 0;
        self.between(&above);
        self.counts
    }

    /// Counts the cells between the last layer and this one, the edges between them, and those of this one.
    fn between(&mut self, signs: &[bool]) {
        let row = self.width + 2;
        for y in 0..self.depth + 1 {
            for x in 0..self.width + 1 {
                let at = y * row + x;
                let places = [at, at + 1, at + row, at + row + 1];
                let here: u32 = places.iter().map(|&place| u32::from(signs[place])).sum();
                let under: u32 = places
                    .iter()
                    .map(|&place| u32::from(self.last[place]))
                    .sum();
                let inside = self.layers > 0 && x > 0 && y > 0 && x < self.width && y < self.depth;
                match here + under {
                    0 => {}
                    8 => self.counts.below += 1,
                    _ => {
                        self.counts.surface += 1;
                        self.counts.open_surface += u64::from(inside);
                    }
                }
            }
        }
        for (at, &sign) in signs.iter().enumerate() {
            let right = at % row + 1 < row && sign != signs[at + 1];
            let back = at + row < signs.len() && sign != signs[at + row];
            let down = sign != self.last[at];
            self.counts.changes += u64::from(right) + u64::from(back) + u64::from(down);
        }
    }
}

/// A sixth of a cubed grid step in the library's six-fold cubed steps of 1/256, of which a cubed grid step has six times 256³.
const SIXTH: i128 = 256 * 256 * 256;

/// How a six-fold sum in cubed steps of 1/256 stands to what was counted.
#[derive(Clone, Copy, Debug, PartialEq)]
pub enum Standing {
    /// Between the cells below zero and those and the open grid's surface cells.
    Sharp,
    /// Outside of that, yet where every closed bed's volume lies.
    Within,
    /// Where no closed bed's volume lies.
    Outside,
}

impl Counts {
    /// Whether the library counted the same.
    pub fn agree(&self, cells: &bed::CellCounts) -> bool {
        (self.below, self.surface, 6 * self.changes) == (cells.whole, cells.vertices, cells.indices)
    }

    /// From where to where the six-fold sum of a closed bed lies.
    pub fn bounds(&self) -> (i128, i128) {
        let [below, surface, changes] = [self.below, self.surface, self.changes].map(i128::from);
        (
            SIXTH * (6 * below - changes),
            SIXTH * (6 * (below + surface) + changes),
        )
    }

    /// The sharper bounds that only contrived beds, or a border in the wrong place, leave.
    pub fn sharp_bounds(&self) -> (i128, i128) {
        let [below, surface] = [self.below, self.open_surface].map(i128::from);
        (SIXTH * 6 * below, SIXTH * 6 * (below + surface))
    }

    pub fn standing(&self, sixfold: i128) -> Standing {
        let holds = |(low, high): (i128, i128)| low <= sixfold && sixfold <= high;
        if !holds(self.bounds()) {
            Standing::Outside
        } else if holds(self.sharp_bounds()) {
            Standing::Sharp
        } else {
            Standing::Within
        }
    }
}

#[cfg(test)]
mod tests {
    use super::*;

    fn counted(dims: [usize; 3], grid: &[f32]) -> Counts {
        let mut counting = Counting::of(dims[0], dims[1]);
        for layer in grid.chunks_exact(dims[0] * dims[1]) {
            counting.add(layer);
        }
        counting.finished()
    }

    /// The same from the definitions, point by point.
    fn plainly(dims: [usize; 3], grid: &[f32]) -> Counts {
        let [x, y, z] = dims.map(|n| n as i64);
        let negative = |p: [i64; 3]| {
            (0..3).all(|a| 0 <= p[a] && p[a] < [x, y, z][a])
                && grid[(p[0] + x * p[1] + x * y * p[2]) as usize] < 0.0
        };
        let mut counts = Counts::default();
        for c in (-1..z).flat_map(|c| (-1..y).flat_map(move |b| (-1..x).map(move |a| [a, b, c]))) {
            let corner = |i: i64| [c[0] + i % 2, c[1] + i / 2 % 2, c[2] + i / 4];
            match (0..8).filter(|&i| negative(corner(i))).count() {
                0 => {}
                8 => counts.below += 1,
                _ => {
                    counts.surface += 1;
                    let open = (0..3).all(|a| 0 <= c[a] && c[a] + 1 < [x, y, z][a]);
                    counts.open_surface += u64::from(open);
                }
            }
            for axis in 0..3 {
                let mut other = c;
                other[axis] += 1;
                counts.changes += u64::from(negative(c) != negative(other));
            }
            counts.points += u64::from(negative(c));
        }
        counts
    }

    #[test]
    fn random_signs_as_plainly_counted() {
        let mut state = 88_172_645_463_325_252u64;
        for turn in 0..400 {
            let mut next = || {
                state ^= state << 13;
                state ^= state >> 7;
                state ^= state << 17;
                state >> 33
            };
            let dims = [(); 3].map(|()| 1 + next() as usize % 5);
            let share = 1 + turn % 5;
            let grid: Vec<f32> = (0..dims.iter().product())
                .map(|_| if next() % 6 < share { -1.0 } else { 0.0 })
                .collect();
            assert_eq!(counted(dims, &grid), plainly(dims, &grid), "{dims:?}");
        }
    }

    #[test]
    fn a_full_tank() {
        let counts = counted([4, 3, 5], &[-1.0; 60]);
        assert_eq!(counts.below, 3 * 2 * 4);
        assert_eq!(counts.surface, 5 * 4 * 6 - 24);
        assert_eq!(counts.open_surface, 0);
        assert_eq!(counts.changes, 2 * (4 * 3 + 4 * 5 + 3 * 5));
        assert_eq!(counts.points, 60);
        // its volume is that of the cells between its points
        assert_eq!(counts.standing(24 * 6 * SIXTH), Standing::Sharp);
        assert_eq!(counts.standing(25 * 6 * SIXTH), Standing::Within);
        let (low, high) = counts.bounds();
        assert_eq!(counts.standing(low), Standing::Within);
        assert_eq!(counts.standing(low - 1), Standing::Outside);
        assert_eq!(counts.standing(high), Standing::Within);
        assert_eq!(counts.standing(high + 1), Standing::Outside);
    }

    #[test]
    fn what_is_not_below_zero() {
        let counts = counted([2, 2, 1], &[f32::NAN, -0.0, 0.0, f32::INFINITY]);
        assert_eq!(counts, Counts::default());
    }
}
