//! What is to be known of the columns of a box before a level is believed, counted here from the signs alone: those that no point below zero is in, those whose
//! highest point is below zero, and those with more than one change of sign, in which something floats over the bed, or hangs over a gap.

/// Counts columns, layer by layer from the lowest up.
pub struct Columns {
    across: usize,
    last: Vec<bool>,
    /// How many changes of sign each has so far, 255 for more.
    changes: Vec<u8>,
    any: Vec<bool>,
    layers: u64,
}

/// What was counted.
#[derive(Clone, Copy, Debug, Default, PartialEq)]
pub struct Found {
    pub columns: u64,
    /// With a point below zero.
    pub filled: u64,
    /// Whose highest point is below zero.
    pub at_top: u64,
    /// With more than one change of sign.
    pub several: u64,
    /// The first of those: x and y in the box.
    pub first_several: Option<[usize; 2]>,
}

impl Columns {
    /// For layers of so many points in x and in all.
    pub fn of(across: usize, points: usize) -> Self {
        Self {
            across,
            last: vec![false; points],
            changes: vec![0; points],
            any: vec![false; points],
            layers: 0,
        }
    }

    pub fn add(&mut self, layer: &[f32]) {
        let first = self.layers == 0;
        for (at, &distance) in layer.iter().enumerate() {
            let below = distance < 0.0;
            if !first && below != self.last[at] {
                self.changes[at] = self.changes[at].saturating_add(1);
            }
            self.any[at] |= below;
            self.last[at] = below;
        }
        self.layers += 1;
    }

    pub fn found(&self) -> Found {
        let count = |list: &[bool]| list.iter().filter(|&&one| one).count() as u64;
        let first = self.changes.iter().position(|&changes| changes > 1);
        Found {
            columns: self.last.len() as u64,
            filled: count(&self.any),
            at_top: count(&self.last),
            several: self.changes.iter().filter(|&&changes| changes > 1).count() as u64,
            first_several: first.map(|at| [at % self.across, at / self.across]),
        }
    }
}

#[cfg(test)]
mod tests {
    use super::*;

    #[test]
    fn each_kind() {
        // three columns by two: bed, none, full; an echo over the bed, a bed that hangs, -0.0 and not-a-number
        let layers = [
            [-1.0, 1.0, -1.0, -2.0, 1.0, -0.0],
            [-1.0, 1.0, -1.0, 1.0, -1.0, f32::NAN],
            [1.0, 0.0, -1.0, -1.0, -1.0, 1.0],
            [1.0, 1.0, -1.0, 1.0, 2.0, 1.0],
        ];
        let mut columns = Columns::of(3, 6);
        for layer in layers {
            columns.add(&layer);
        }
        let found = Found {
            columns: 6,
            filled: 4,
            at_top: 1,
            several: 2,
            first_several: Some([0, 1]),
        };
        assert_eq!(columns.found(), found);
    }
}
