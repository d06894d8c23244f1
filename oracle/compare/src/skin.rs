//! Document 02, request 8, counted on many meshes of the published Rust and of the proved library: on
//! closed grids, on the same grids with a point that breaks the premise, and, for neighbour cells, on any
//! grid; and the library's test of the premise against a plain model, on refusals too.

mod grids;
mod sides;

use crate::calls::{accepted, OwnCall};
use crate::fields::FIELDS;
use crate::random::Random;
use crate::refused::{near_origin, spoiled, LIMITS, SPOILS};
use crate::wrapper::wrapped;
use bed::raw::{bed_is_enclosed, BedBox};
use bed::{surface_nets, SurfaceNetsBuffer};
use grids::{closed, Break, AT_MAX, AT_MIN, BEFORE_MAX, BREAKS};
use oracle::call::{Call, MaxPlane};
use oracle::enclosed::{enclosed, pairs, Enclosed};
use oracle::published::Mesh;
use sides::{face_sides, sides};

const SEED: u64 = 0x5EA1_5EA1;
const CLOSED_A_FIELD: u32 = 2_000;
const OPEN_A_FIELD: u32 = 2_000;
const CALLS_A_SPOIL: u32 = 500;
const CALLS_A_LIMIT: u32 = 100;

/// Closed grids with a face that a full run must reach.
const ENOUGH: u64 = 10_000;

/// Makes all calls and prints what was counted. True if the law holds wherever it should, fails where the
/// premise is broken, and the test of the premise is the model's.
pub fn run() -> bool {
    println!("seed {SEED:#x}");
    let mut run = Run {
        random: Random::new(SEED),
        meshes: Meshes::default(),
        wrong: 0,
        answers: [0; 4],
        yes: 0,
    };
    let came_up = [run.closed_grids(), run.neighbours_on_any_grid()];
    run.refusals();
    let [done, dimensions, box_, length] = run.answers;
    println!(
        "the test of the premise: {done} calls accepted, {} with yes; refused by 1, 2, 3: {dimensions}, {box_}, {length}",
        run.yes
    );
    let good =
        run.wrong == 0 && came_up.iter().all(|&all| all) && run.answers.iter().all(|&n| n > 0);
    println!("wrong: {}", run.wrong);
    println!(
        "{}",
        if good {
            "NO HOLE"
        } else {
            "NOT ALL IS AS IT SHOULD BE"
        }
    );
    good
}

struct Run {
    random: Random,
    meshes: Meshes,
    wrong: u64,
    answers: [u64; 4],
    yes: u64,
}

/// What was counted on the meshes of closed grids.
#[derive(Default)]
struct Tally {
    grids: u64,
    with_face: u64,
    sides: u64,
    repeated: u64,
    most: u32,
    turned: u64,
}

/// Grids with the premise broken in one way, and those of them whose mesh has an unmatched side, without
/// and with max plane on all axes.
#[derive(Default)]
struct Broken {
    grids: u64,
    unmatched: [u64; 2],
}

impl Run {
    fn fail(&mut self, call: &OwnCall, what: &str) {
        self.wrong += 1;
        if self.wrong <= 5 {
            println!(
                "WRONG: {what}; dimensions {:?}, box {:?} to {:?}, {:?}",
                call.dims, call.min, call.max, call.max_plane
            );
        }
    }

    /// The library's test of the premise on a call, held against the model's.
    fn tested(&mut self, call: &OwnCall) -> Enclosed {
        let wanted = enclosed(&call.view());
        for before in [false, true] {
            if ask(&call.view(), before) != wanted {
                self.fail(call, "the test of the premise is not the model's");
            }
        }
        self.answers[wanted.answer as usize] += 1;
        self.yes += u64::from(wanted.enclosed);
        wanted
    }

    /// Whether the Rust's mesh has an unmatched side; the library's must agree. The library's list too.
    fn unmatched(&mut self, call: &OwnCall) -> (bool, Vec<u32>) {
        let [published, proved] = self.meshes.of(call);
        if published != proved {
            self.fail(call, "the two index lists differ");
        }
        let found = [&published, &proved].map(|list| sides(list).unmatched() > 0);
        if found[0] != found[1] {
            self.fail(call, "only one of the two meshes has an unmatched side");
        }
        (found[0], proved)
    }

    fn closed_grids(&mut self) -> bool {
        let mut tally = Tally::default();
        let mut broken: [Broken; BREAKS.len()] = Default::default();
        for field in &FIELDS {
            for _ in 0..CLOSED_A_FIELD {
                let call = closed(&mut self.random, field);
                if !self.tested(&call).enclosed {
                    self.fail(&call, "a closed grid is said to be open");
                }
                self.count_closed(&call, &mut tally);
                for (kind, broken) in BREAKS.iter().zip(&mut broken) {
                    self.count_broken(&call, kind, broken);
                }
            }
        }
        println!(
            "closed grids: {}, {} with a face, each meshed by both with each of the eight max planes",
            tally.grids, tally.with_face
        );
        println!(
            "    directed sides {}, of which {} occur more than once, none more than {} times",
            tally.sides, tally.repeated, tally.most
        );
        println!(
            "    the same with one triangle turned: {}, each with an unmatched side",
            tally.turned
        );
        for (kind, broken) in BREAKS.iter().zip(&broken) {
            println!(
                "the same with a negative point {}: {} grids, with an unmatched side {}, with max plane {}",
                kind.name, broken.grids, broken.unmatched[0], broken.unmatched[1]
            );
        }
        let fails =
            |kind: usize, max_plane: bool| broken[kind].unmatched[usize::from(max_plane)] > 0;
        let all_fail = fails(AT_MIN, false) && fails(BEFORE_MAX, false) && fails(AT_MAX, true);
        tally.with_face >= ENOUGH && tally.repeated > 0 && all_fail
    }

    fn count_closed(&mut self, call: &OwnCall, tally: &mut Tally) {
        tally.grids += 1;
        for max_plane in MaxPlane::every() {
            let call = with_plane(call, max_plane);
            let (unmatched, mut list) = self.unmatched(&call);
            if unmatched {
                self.fail(&call, "a closed grid's mesh has an unmatched side");
            }
            if max_plane != MaxPlane::NONE || list.is_empty() {
                continue;
            }
            let counted = sides(&list);
            tally.with_face += 1;
            tally.sides += counted.total();
            tally.repeated += counted.repeated();
            tally.most = tally.most.max(counted.most());
            let triangle = self.random.between(0, list.len() as u64 / 3 - 1) as usize;
            list.swap(3 * triangle, 3 * triangle + 1);
            tally.turned += 1;
            if sides(&list).unmatched() == 0 {
                self.fail(&call, "a turned triangle goes unnoticed");
            }
        }
    }

    fn count_broken(&mut self, call: &OwnCall, kind: &Break, broken: &mut Broken) {
        let Some(call) = kind.apply(&mut self.random, call) else {
            return;
        };
        broken.grids += 1;
        if self.tested(&call).enclosed {
            self.fail(&call, "a broken premise goes unnoticed");
        }
        for (place, max_plane) in [MaxPlane::NONE, MaxPlane::ALL].into_iter().enumerate() {
            let (unmatched, _) = self.unmatched(&with_plane(&call, max_plane));
            broken.unmatched[place] += u64::from(unmatched);
        }
    }

    fn neighbours_on_any_grid(&mut self) -> bool {
        let (mut grids, mut closed, mut joined, mut twice) = (0u64, 0u64, 0u64, 0u64);
        for field in &FIELDS {
            for _ in 0..OPEN_A_FIELD {
                let call = accepted(&mut self.random, field, 7);
                grids += 1;
                closed += u64::from(self.tested(&call).enclosed);
                let [_, proved] = self.meshes.of(&call);
                let counted = face_sides(&proved);
                for pair in pairs(&call.view()) {
                    let Some([v, w]) = self.meshes.numbers(pair) else {
                        continue;
                    };
                    let often = counted.often(v, w);
                    joined += u64::from(often > 0);
                    twice += u64::from(often > 1);
                    if often != counted.often(w, v) {
                        self.fail(&call, "a face side between neighbours is unmatched");
                    }
                }
            }
        }
        println!("any grid: {grids}, {closed} of them closed");
        println!("    pairs of neighbours with all four edges owned and a face side: {joined}, with two: {twice}");
        closed < grids && joined > 0 && twice > 0
    }

    fn refusals(&mut self) {
        for spoil in SPOILS {
            for _ in 0..CALLS_A_SPOIL {
                let (call, _) = spoiled(&mut self.random, &[spoil]);
                self.tested(&call);
            }
        }
        for (place, &later) in SPOILS.iter().enumerate() {
            for &earlier in &SPOILS[..place] {
                let (call, _) = spoiled(&mut self.random, &[earlier, later]);
                self.tested(&call);
            }
        }
        for dims in LIMITS {
            for _ in 0..CALLS_A_LIMIT {
                let call = near_origin(&mut self.random, dims);
                self.tested(&call);
            }
        }
    }
}

fn with_plane(call: &OwnCall, max_plane: MaxPlane) -> OwnCall {
    OwnCall {
        max_plane,
        ..call.clone()
    }
}

/// The library's own answer. `before` is what stands behind `enclosed` before the call.
fn ask(call: &Call, before: bool) -> Enclosed {
    let Call {
        grid,
        dims,
        min,
        max,
        max_plane,
        ..
    } = *call;
    // the flags never matter here
    let block = BedBox {
        max_plane: max_plane.0.map(u32::from),
        ..BedBox::with(dims, min, max)
    };
    let mut enclosed = before;
    // SAFETY: the pointer and length come from one slice, and `enclosed` is a variable of its own.
    let answer = unsafe { bed_is_enclosed(grid.as_ptr(), grid.len(), &block, &mut enclosed) };
    Enclosed { answer, enclosed }
}

/// Both meshes of the last call, their memory used again.
#[derive(Default)]
struct Meshes {
    published: Mesh,
    proved: SurfaceNetsBuffer,
}

impl Meshes {
    /// The index list of the Rust and that of the library.
    fn of(&mut self, call: &OwnCall) -> [Vec<u32>; 2] {
        self.published.run(&call.view());
        surface_nets(
            &call.grid,
            call.dims,
            call.min,
            call.max,
            wrapped(call.max_plane),
            &mut self.proved,
        )
        .expect("the call is accepted");
        [self.published.indices.clone(), self.proved.indices.clone()]
    }

    /// The vertex numbers of two cells, if both have a vertex in the library's mesh.
    fn numbers(&self, pair: [[u32; 3]; 2]) -> Option<[u32; 2]> {
        let [v, w] = pair.map(|cell| self.proved.surface_points.iter().position(|&c| c == cell));
        Some([v? as u32, w? as u32])
    }
}
