//! The level of the bed: the highest, the lowest and the mean of the columns that have one, as the library told them.

use crate::layers_of::sizes;
use bed::Block;

/// What the library tells of a column without a point below zero.
const NONE: f32 = -1.0;

/// The levels of a box's columns, x innermost, in grid steps from z = 0.
pub struct Levels {
    pub whole: Block,
    pub columns: Vec<f32>,
}

/// A level and the column that has it first, in the grid's own x and y.
#[derive(Clone, Copy, Debug, PartialEq)]
pub struct At {
    pub level: f64,
    pub column: [u32; 2],
}

/// Of some columns.
#[derive(Clone, Copy, Debug, PartialEq)]
pub struct Summary {
    pub highest: At,
    pub lowest: At,
    pub mean: f64,
    /// How many have a point below zero.
    pub filled: u64,
    /// Of how many.
    pub columns: u64,
}

impl Levels {
    /// Of the columns that stand in the whole and in this box, whatever the box's z; none where none has a point below zero.
    pub fn summary(&self, block: &Block) -> Option<Summary> {
        let clamp =
            |axis: usize, place: u32| place.clamp(self.whole.min[axis], self.whole.max[axis]);
        let across = sizes(&self.whole)[0] as usize;
        let (mut highest, mut lowest): (Option<At>, Option<At>) = (None, None);
        let (mut sum, mut filled, mut columns) = (0.0, 0, 0);
        for y in clamp(1, block.min[1])..=clamp(1, block.max[1]) {
            for x in clamp(0, block.min[0])..=clamp(0, block.max[0]) {
                columns += 1;
                let row = (y - self.whole.min[1]) as usize * across;
                let level = self.columns[row + (x - self.whole.min[0]) as usize];
                if level == NONE {
                    continue;
                }
                let level = f64::from(level);
                let here = At {
                    level,
                    column: [x, y],
                };
                sum += level;
                filled += 1;
                if highest.is_none_or(|at| level > at.level) {
                    highest = Some(here);
                }
                if lowest.is_none_or(|at| level < at.level) {
                    lowest = Some(here);
                }
            }
        }
        Some(Summary {
            highest: highest?,
            lowest: lowest?,
            mean: sum / filled as f64,
            filled,
            columns,
        })
    }

    /// The level of each column after this, and not-a-number where there is none.
    pub fn each(&self, level: impl Fn(f64) -> f64) -> Vec<f32> {
        let told = |&one: &f32| match one == NONE {
            true => f32::NAN,
            false => level(one.into()) as f32,
        };
        self.columns.iter().map(told).collect()
    }
}

#[cfg(test)]
mod tests {
    use super::*;

    #[test]
    fn of_the_whole_and_of_a_block() {
        let levels = Levels {
            whole: Block {
                min: [2, 5, 1],
                max: [4, 6, 9],
                ..Block::default()
            },
            columns: vec![1.5, -1.0, 3.0, 0.0, 3.0, 2.5],
        };
        let whole = levels.summary(&levels.whole).unwrap();
        let at = |level, column| At { level, column };
        assert_eq!(whole.highest, at(3.0, [4, 5]));
        assert_eq!(whole.lowest, at(0.0, [2, 6]));
        assert_eq!((whole.mean, whole.filled, whole.columns), (2.0, 5, 6));
        let block = Block {
            min: [3, 6, 0],
            max: [9, 9, 0],
            ..Block::default()
        };
        let part = levels.summary(&block).unwrap();
        assert_eq!(
            (part.highest, part.lowest),
            (at(3.0, [3, 6]), at(2.5, [4, 6]))
        );
        assert_eq!((part.filled, part.columns), (2, 2));
        let empty = Block {
            min: [3, 5, 0],
            max: [3, 5, 0],
            ..Block::default()
        };
        assert_eq!(levels.summary(&empty), None);
        let each = levels.each(|level| level * 2.0 + 1.0);
        assert!(each[1].is_nan());
        assert_eq!((each[0], each[3]), (4.0, 1.0));
    }
}
