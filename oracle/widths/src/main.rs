//! Compares the calls over signed 16-bit and 8-bit distances (document 02, request 5) with the float call and with the
//! published Rust on the converted grids, bit for bit, in memory against pages that nobody may touch.
//!
//! All is made with a fixed seed. Exit status 0: all agreed, enough was compared, each thing that must come up came up,
//! and answer 5 never did. Exit status 1: not so.

#[path = "../../compare/src/calls.rs"]
mod calls;
mod check;
#[path = "../../fixtures/src/fenced.rs"]
mod fenced;
#[path = "../../compare/src/fields.rs"]
mod fields;
mod memory;
mod numbers;
mod own;
#[path = "../../compare/src/random.rs"]
mod random;
#[path = "../../compare/src/refused.rs"]
#[allow(dead_code)]
mod refused;
#[path = "../../compare/src/tally.rs"]
mod tally;
mod width;
mod wrapper;

use calls::{accepted, in_dimensions, some_room, OwnCall};
use check::{Checker, WholeCall};
use numbers::{any_number, numbers};
use oracle::call::{Call, MaxPlane, Room};
use oracle::enclosed::margin;
use oracle::expected::room_needed;
use random::Random;
use refused::{near_origin, Spoil, LIMITS, SPOILS};
use std::process::ExitCode;
use tally::Tally;
use width::Whole;

/// The largest magnitude that the float call lets in.
const CAP: f32 = oracle::model::DISTANCE_LIMIT;
const SEED: u64 = 0xBED0_0005;
const SEED_OF_LONG_ROWS: u64 = 0x0102_4005;

const SMALL: u32 = 8;
const LARGE: u32 = 66;
const SMALL_CALLS_A_KIND: u32 = 10_000;
const LARGE_CALLS_A_KIND: u32 = 10;
const LONG_CALLS_A_KIND: u32 = 3;
const GRIDS_WITH_EVERY_BOX_A_KIND: u32 = 3;
const CELLS_WITH_EACH_NUMBER: i32 = 65_536;
const CLOSED_A_KIND: u32 = 3_000;
const CALLS_A_SPOIL: u32 = 1_000;
const CALLS_A_PAIR: u32 = 100;
const CALLS_WITH_THREE: u32 = 10_000;
const CALLS_A_LIMIT: u32 = 200;

/// What a full run must reach for each width: accepted and refused calls, and grids without a hole that have a vertex.
const ENOUGH: u64 = 50_000;
const ENOUGH_CLOSED: u64 = 5_000;

/// The run over one width: its memory, its random numbers and the sum of what it counted.
struct Run<D> {
    checker: Checker<D>,
    random: Random,
    all: Tally,
}

fn main() -> ExitCode {
    println!("seed {SEED:#x}");
    let agreed = [compare::<i16>(), compare::<i8>()];
    if agreed == [true; 2] {
        println!("ALL AGREE");
        ExitCode::SUCCESS
    } else {
        println!("NOT ALL IS AS IT SHOULD BE");
        ExitCode::FAILURE
    }
}

fn compare<D: Whole>() -> bool {
    println!("== signed, {}: {} to {}", D::NAME, D::LEAST, D::MOST);
    let mut run = Run::<D> {
        checker: Checker::new(SMALL),
        random: Random::new(SEED),
        all: Tally::default(),
    };
    run.small_grids();
    run.every_box();
    run.single_cells();
    run.closed_grids();
    run.bad_calls();
    run.large_grids();
    run.long_rows();
    let wrapped = wrapper::run::<D>(&mut run.random);
    let own = own::run::<D>(&mut run.random);
    run.verdict() && wrapped + own == 0
}

impl<D: Whole> Run<D> {
    /// Makes the calls of one kind, prints what they covered and adds it up.
    fn part(&mut self, name: &str, make: impl Fn(&mut Self, &mut Tally)) {
        let mut tally = Tally::default();
        make(self, &mut tally);
        tally.print(name);
        self.all.add(&tally);
    }

    fn check(
        &mut self,
        tally: &mut Tally,
        call: OwnCall,
        room: impl Fn(&mut Random, &Call) -> Room,
    ) {
        let call = WholeCall::of(call);
        let room = room(&mut self.random, &call.floats.view());
        self.checker.check(tally, &call, &room, &mut self.random);
    }

    fn small_grids(&mut self) {
        for kind in numbers::<D>() {
            self.part(
                &format!("{}, dimensions 1 to {SMALL}", kind.name),
                |run, tally| {
                    for _ in 0..SMALL_CALLS_A_KIND / 2 {
                        let call = accepted(&mut run.random, &kind, SMALL);
                        run.check(tally, call, some_room);
                        let call = accepted(&mut run.random, &kind, SMALL);
                        run.check(tally, call, about_right);
                    }
                },
            );
        }
    }

    fn every_box(&mut self) {
        self.part(
            "every box, with each of the eight max planes",
            |run, tally| {
                for kind in numbers::<D>() {
                    for _ in 0..GRIDS_WITH_EVERY_BOX_A_KIND {
                        let dims = std::array::from_fn(|_| run.random.coordinate(3, 4));
                        let grid = in_dimensions(&mut run.random, &kind, dims).grid;
                        run.boxes(tally, dims, grid);
                    }
                }
            },
        );
    }

    fn boxes(&mut self, tally: &mut Tally, dims: [u32; 3], grid: Vec<f32>) {
        let highest = dims.map(|dim| dim - 1);
        for min in oracle::model::points([0; 3], highest) {
            for max in oracle::model::points(min, highest) {
                for max_plane in MaxPlane::every() {
                    let grid = grid.clone();
                    let call = OwnCall {
                        grid,
                        dims,
                        min,
                        max,
                        max_plane,
                    };
                    self.check(tally, call, some_room);
                }
            }
        }
    }

    fn single_cells(&mut self) {
        self.part(
            "one cell, each number of the range at a corner",
            |run, tally| {
                for turn in 0..CELLS_WITH_EACH_NUMBER {
                    let number = D::LEAST + turn % (D::MOST - D::LEAST + 1);
                    let mut corners = [0; 8].map(|_| any_number::<D>(&mut run.random));
                    corners[run.random.between(0, 7) as usize] = number as f32;
                    run.cell(tally, corners);
                }
            },
        );
        self.part(
            "one cell, one corner and the others, by pairs of 256 numbers",
            |run, tally| {
                for one in D::SOME {
                    for others in D::SOME {
                        let mut corners = [others as f32; 8];
                        corners[run.random.between(0, 7) as usize] = one as f32;
                        run.cell(tally, corners);
                    }
                }
            },
        );
    }

    fn cell(&mut self, tally: &mut Tally, corners: [f32; 8]) {
        let call = OwnCall {
            grid: corners.to_vec(),
            dims: [2; 3],
            min: [0; 3],
            max: [1; 3],
            max_plane: calls::some_flags(&mut self.random),
        };
        self.check(tally, call, some_room);
    }

    /// The numbers below zero in the box's margin turned to their opposites.
    fn closed_grids(&mut self) {
        self.part("grids without a hole", |run, tally| {
            for kind in numbers::<D>() {
                for _ in 0..CLOSED_A_KIND {
                    let dims = std::array::from_fn(|_| run.random.coordinate(4, SMALL));
                    let mut call = in_dimensions(&mut run.random, &kind, dims);
                    let places: Vec<usize> = margin(&call.view())
                        .map(|point| call.index(point))
                        .collect();
                    places
                        .into_iter()
                        .for_each(|place| call.grid[place] = call.grid[place].abs());
                    run.check(tally, call, some_room);
                }
            }
        });
    }

    fn bad_calls(&mut self) {
        self.part("one thing spoiled", |run, tally| {
            for spoil in SPOILS {
                run.spoil(tally, &[spoil], CALLS_A_SPOIL);
            }
        });
        self.part("two things spoiled", |run, tally| {
            for (place, &later) in SPOILS.iter().enumerate() {
                for &earlier in &SPOILS[..place] {
                    run.spoil(tally, &[earlier, later], CALLS_A_PAIR);
                }
            }
        });
        self.part("three things spoiled", |run, tally| {
            for _ in 0..CALLS_WITH_THREE {
                let mut places =
                    [0; 3].map(|_| run.random.between(0, SPOILS.len() as u64 - 1) as usize);
                places.sort();
                run.spoil(tally, &places.map(|place| SPOILS[place]), 1);
            }
        });
        self.part(
            "dimensions at the limits, products that wrap",
            |run, tally| {
                for dims in LIMITS {
                    for _ in 0..CALLS_A_LIMIT {
                        let call = near_origin(&mut run.random, dims);
                        run.check(tally, call, |_, call| Room {
                            map: call.grid.len(),
                            ..room_needed(call).unwrap_or_default()
                        });
                    }
                }
            },
        );
    }

    /// Spoils accepted calls over whole numbers. Distances that are not finite or too large become whole numbers
    /// again, so that those calls stay good.
    fn spoil(&mut self, tally: &mut Tally, spoils: &[Spoil], calls: u32) {
        for _ in 0..calls {
            let kind = self.random.pick(&numbers::<D>());
            let mut call = WholeCall::<D>::of(accepted(&mut self.random, &kind, 5)).floats;
            let mut room = some_room(&mut self.random, &call.view());
            for spoil in spoils {
                spoil(&mut self.random, &mut call, &mut room);
            }
            self.check(tally, call, |_, _| room);
        }
    }

    /// In memory of their own.
    fn large_grids(&mut self) {
        let small = std::mem::replace(&mut self.checker, Checker::new(LARGE));
        self.checker.tests = small.tests;
        self.part(
            &format!("all kinds, dimensions 1 to {LARGE}"),
            |run, tally| {
                for kind in numbers::<D>() {
                    for _ in 0..LARGE_CALLS_A_KIND {
                        let call = accepted(&mut run.random, &kind, LARGE);
                        run.check(tally, call, some_room);
                    }
                    let call = in_dimensions(&mut run.random, &kind, [LARGE; 3]);
                    run.check(tally, call, some_room);
                }
            },
        );
    }

    /// In the memory of the large grids, with random numbers of their own, so that what follows stays what it is.
    fn long_rows(&mut self) {
        let random = std::mem::replace(&mut self.random, Random::new(SEED_OF_LONG_ROWS));
        self.part("all kinds, rows of 1,022 to 4,097 points", |run, tally| {
            for kind in numbers::<D>() {
                for points in calls::LONG_ROWS {
                    for _ in 0..LONG_CALLS_A_KIND {
                        let call = calls::with_row(&mut run.random, &kind, points);
                        run.check(tally, call, some_room);
                    }
                }
            }
        });
        self.random = random;
    }

    fn verdict(&self) -> bool {
        self.all.print(&format!("all calls, {}", D::NAME));
        let tests = &self.checker.tests;
        let [done, dimensions, box_, length] = tests.answers;
        println!(
            "    the test for holes: {done} calls accepted, {} with yes, of which {} with a vertex; refused by 1, 2, 3: {dimensions}, {box_}, {length}",
            tests.yes, tests.yes_with_vertex
        );
        let mut missing = self.all.missing();
        missing.retain(|name| name != "answer 5");
        if !missing.is_empty() {
            println!("never came up: {}", missing.join(", "));
        }
        let never = self.all.answers[5] == 0;
        if !never {
            println!("answer 5 came up");
        }
        let enough = self.all.accepted() >= ENOUGH
            && self.all.refused() >= ENOUGH
            && tests.yes_with_vertex >= ENOUGH_CLOSED
            && tests.answers.iter().all(|&calls| calls > 0);
        if !enough {
            println!("too few calls: {ENOUGH} accepted, {ENOUGH} refused and {ENOUGH_CLOSED} without a hole are wanted");
        }
        self.all.differing == 0 && missing.is_empty() && never && enough
    }
}

/// Room of about the right length in each list: one short, right or to spare.
fn about_right(random: &mut Random, call: &Call) -> Room {
    let needed = room_needed(call).expect("the call is accepted with enough room");
    needed.each(|length| match random.between(0, 15) {
        0 => length.saturating_sub(1),
        1 => length + 1,
        2 => length + random.between(2, 9) as usize,
        _ => length,
    })
}
