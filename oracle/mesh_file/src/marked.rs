//! Lent memory that holds marks, with marks before and behind it too, so that every write shows.

const AROUND: usize = 8;

/// A run of lent elements between two runs of marks, all of them marks at first.
pub struct Marked<T> {
    all: Vec<T>,
    mark: T,
}

impl<T: Copy + PartialEq> Marked<T> {
    pub fn of(length: usize, mark: T) -> Self {
        Self {
            all: vec![mark; length + 2 * AROUND],
            mark,
        }
    }

    pub fn lent(&mut self) -> &mut [T] {
        let end = self.all.len() - AROUND;
        &mut self.all[AROUND..end]
    }

    /// Whether the lent elements begin with these and everything else is still a mark.
    pub fn holds(&self, written: &[T]) -> bool {
        let end = AROUND + written.len();
        let marks = |run: &[T]| run.iter().all(|element| *element == self.mark);
        marks(&self.all[..AROUND]) && self.all[AROUND..end] == *written && marks(&self.all[end..])
    }
}
