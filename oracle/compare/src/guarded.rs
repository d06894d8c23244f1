//! Memory with marked words before and behind it, so that a write outside a lent buffer shows.

const MARKED: usize = 16;

/// A run of 32-bit words between two runs of marks.
#[derive(Default)]
pub struct Guarded {
    words: Vec<u32>,
}

impl Guarded {
    pub fn holding(contents: Vec<u32>) -> Self {
        let mut guarded = Self::default();
        guarded.hold(contents.into_iter());
        guarded
    }

    /// Holds these contents from now on, the marks drawn new around them.
    pub fn hold(&mut self, contents: impl Iterator<Item = u32>) {
        self.words.clear();
        self.words.extend((0..MARKED).map(mark));
        self.words.extend(contents);
        self.words.extend((0..MARKED).map(mark));
    }

    pub fn contents(&mut self) -> &mut [u32] {
        let end = self.words.len() - MARKED;
        &mut self.words[MARKED..end]
    }

    /// The contents as floats with these bit patterns, in place.
    pub fn floats(&self) -> &[f32] {
        let contents = &self.words[MARKED..self.words.len() - MARKED];
        // SAFETY: u32 and f32 have the same size and alignment, and every pattern is a float.
        unsafe { std::slice::from_raw_parts(contents.as_ptr().cast(), contents.len()) }
    }

    /// The first place that is not as wanted, counted from the first word of the contents; a place in
    /// the marks is negative or past the end.
    pub fn first_difference(&self, wanted: &[u32]) -> Option<(isize, u32)> {
        let end = self.words.len() - MARKED;
        let marks_kept = self.words[..MARKED]
            .iter()
            .copied()
            .eq((0..MARKED).map(mark))
            && self.words[end..].iter().copied().eq((0..MARKED).map(mark));
        if marks_kept && self.words[MARKED..end] == *wanted {
            return None;
        }
        let marks = || (0..MARKED).map(mark);
        let all_wanted = marks().chain(wanted.iter().copied()).chain(marks());
        let place = self
            .words
            .iter()
            .zip(all_wanted)
            .position(|(&is, should)| is != should)?;
        Some((place as isize - MARKED as isize, self.words[place]))
    }
}

fn mark(place: usize) -> u32 {
    0xA5A5_0000 + place as u32
}
