//! One call over whole numbers, asked of the library, of its float call on the converted grid, and of the oracle: the
//! published Rust on that grid, or on a refusal the model. The test for holes is asked of the three as well.

use crate::calls::{old_contents, OwnCall};
use crate::memory::{difference, Memory};
use crate::random::Random;
use crate::tally::Tally;
use crate::width::Whole;
use oracle::call::Room;
use oracle::enclosed::enclosed;
use oracle::expected::{outcome, Contents};
use oracle::model::Verdict;
use oracle::published::Mesh;

/// Differences that are printed in full; the others are only counted.
const SHOWN: u64 = 5;

/// A call over whole numbers, and the same call over the floats of the same values.
pub struct WholeCall<D> {
    pub floats: OwnCall,
    pub grid: Vec<D>,
}

impl<D: Whole> WholeCall<D> {
    /// The call whose numbers are those of a float call, or near them.
    pub fn of(mut call: OwnCall) -> Self {
        let grid: Vec<D> = call.grid.iter().map(|&distance| D::of(distance)).collect();
        call.grid = grid.iter().map(|&number| number.into()).collect();
        Self { floats: call, grid }
    }
}

/// What the tests for holes answered.
#[derive(Default)]
pub struct Tests {
    pub answers: [u64; 4],
    pub yes: u64,
    /// Those of them on a grid with a vertex.
    pub yes_with_vertex: u64,
}

/// Memory for calls with dimensions to some length, and what the tests for holes answered.
pub struct Checker<D> {
    whole: Memory<D>,
    floats: Memory<f32>,
    mesh: Mesh,
    pub tests: Tests,
    shown: u64,
}

/// What a call answered and left behind.
type Left = (Verdict, Contents);

impl<D: Whole> Checker<D> {
    pub fn new(longest: u32) -> Self {
        Self {
            whole: Memory::new(longest),
            floats: Memory::new(longest),
            mesh: Mesh::default(),
            tests: Tests::default(),
            shown: 0,
        }
    }

    /// Asks all three, counts the call in the tally and reports what differs.
    pub fn check(
        &mut self,
        tally: &mut Tally,
        call: &WholeCall<D>,
        room: &Room,
        random: &mut Random,
    ) {
        let view = call.floats.view();
        let mut wanted = old_contents(room, random);
        let upper = random.one_in(2);
        self.whole.hold(&call.grid, &wanted, upper);
        self.floats.hold(&call.floats.grid, &wanted, upper);
        let expected = outcome(&view, &mut wanted, &mut self.mesh);
        let whole = (self.whole.mesh(&view), self.whole.contents());
        let floats = (self.floats.mesh(&view), self.floats.contents());
        tally.count(&view, &expected, &self.mesh);
        let faults = [
            parted(&whole, &floats).map(|what| format!("from the float call: {what}")),
            parted(&whole, &(expected, wanted)).map(|what| format!("from the oracle: {what}")),
            self.beside(call),
            self.tested(call, expected.vertices > 0),
        ];
        if let Some(fault) = faults.into_iter().flatten().next() {
            tally.differing += 1;
            self.show(call, room, &fault);
        }
    }

    fn beside(&mut self, call: &WholeCall<D>) -> Option<String> {
        let kept = self.whole.kept(&call.grid) && self.floats.kept(&call.floats.grid);
        (!kept).then(|| "the grid, or memory beside what is lent, was changed".into())
    }

    /// The test for holes, with a no and with a yes standing there before.
    fn tested(&mut self, call: &WholeCall<D>, has_vertex: bool) -> Option<String> {
        let view = call.floats.view();
        let wanted = enclosed(&view);
        self.tests.answers[wanted.answer as usize] += 1;
        self.tests.yes += u64::from(wanted.enclosed);
        self.tests.yes_with_vertex += u64::from(wanted.enclosed && has_vertex);
        [false, true].into_iter().find_map(|before| {
            let whole = self.whole.is_enclosed(&view, before);
            let floats = self.floats.is_enclosed(&view, before);
            let same = whole == wanted && floats == wanted;
            (!same).then(|| {
                format!("the test for holes: {whole:?}, of floats {floats:?}, the model {wanted:?}")
            })
        })
    }

    fn show(&mut self, call: &WholeCall<D>, room: &Room, fault: &str) {
        self.shown += 1;
        if self.shown > SHOWN {
            return;
        }
        let OwnCall {
            grid,
            dims,
            min,
            max,
            max_plane,
        } = &call.floats;
        println!("DIFFERENT, {}: {fault}", D::NAME);
        println!(
            "    dimensions {dims:?}, box {min:?} to {max:?}, {max_plane:?}, grid of {}, {room:?}",
            grid.len()
        );
        if grid.len() <= 64 {
            println!("    grid {grid:?}");
        }
    }
}

/// Where two outcomes part, in words.
fn parted((is, written): &Left, (wanted, should): &Left) -> Option<String> {
    if is != wanted {
        return Some(format!("answered {is:?}, not {wanted:?}"));
    }
    difference(written, should)
}
