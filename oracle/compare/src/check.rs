//! One call, asked of both: every number of every buffer, the marks around them, and the verdict.

use crate::calls::old_contents;
use crate::guarded::Guarded;
use crate::library;
use crate::random::Random;
use crate::tally::Tally;
use oracle::call::{Call, Lent, Room, BUFFERS};
use oracle::expected::{outcome, Contents};
use oracle::model::Verdict;
use oracle::published::Mesh;

/// Differences that are printed in full; the others are only counted.
const SHOWN: u64 = 5;

/// Working memory for the calls of one run.
#[derive(Default)]
pub struct Checker {
    mesh: Mesh,
    grid: Guarded,
    buffers: Lent<Guarded>,
    shown: u64,
}

impl Checker {
    /// Asks both, counts the call in the tally and reports what differs.
    pub fn check(&mut self, tally: &mut Tally, call: &Call, room: &Room, random: &mut Random) {
        let mut contents = old_contents(room, random);
        self.hold(call, &contents);
        let expected = outcome(call, &mut contents, &mut self.mesh);
        let answered = self.ask_library(call);
        tally.count(call, &expected, &self.mesh);
        if let Some(difference) = self.difference(call, &expected, &answered, contents) {
            tally.differing += 1;
            self.show(call, room, &difference);
        }
    }

    fn hold(&mut self, call: &Call, contents: &Contents) {
        self.grid.hold(call.grid.iter().map(|d| d.to_bits()));
        let buffers = self.buffers.by_mut().in_order();
        for (buffer, numbers) in buffers.into_iter().zip(contents.by_ref().in_order()) {
            buffer.hold(numbers.iter().copied());
        }
    }

    fn ask_library(&mut self, call: &Call) -> Verdict {
        let call = Call {
            grid: self.grid.floats(),
            ..*call
        };
        library::run(&call, self.buffers.by_mut().each(Guarded::contents))
    }

    /// The first thing that is not as the oracle says, in words.
    fn difference(
        &self,
        call: &Call,
        expected: &Verdict,
        answered: &Verdict,
        contents: Contents,
    ) -> Option<String> {
        if expected != answered {
            return Some(format!("expected {expected:?}, answered {answered:?}"));
        }
        let grid: Vec<u32> = call.grid.iter().map(|d| d.to_bits()).collect();
        let wanted = contents.in_order();
        let buffers = self.buffers.by_ref().in_order().into_iter().zip(&wanted);
        let mut places: Vec<_> = (BUFFERS.into_iter().zip(buffers))
            .map(|(name, (buffer, wanted))| (name, buffer.first_difference(wanted), wanted))
            .collect();
        places.push(("grid", self.grid.first_difference(&grid), &grid));
        places.into_iter().find_map(|(name, place, wanted)| {
            let (place, is) = place?;
            let should = usize::try_from(place)
                .ok()
                .and_then(|place| wanted.get(place));
            Some(match should {
                Some(should) => format!("{name}[{place}] is {is:#010x}, not {should:#010x}"),
                None => format!("{name}[{place}], outside the buffer, was changed to {is:#010x}"),
            })
        })
    }

    fn show(&mut self, call: &Call, room: &Room, difference: &str) {
        self.shown += 1;
        if self.shown > SHOWN {
            return;
        }
        println!("DIFFERENT: {difference}");
        println!(
            "    dimensions {:?}, box {:?} to {:?}, {:?}, grid of {}, {room:?}",
            call.dims,
            call.min,
            call.max,
            call.max_plane,
            call.grid.len()
        );
        if call.grid.len() <= 64 {
            println!("    grid {:?}", call.grid);
        }
    }
}
