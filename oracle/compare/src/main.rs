//! Compares the proved library with the published Rust at scale, bit for bit.
//!
//! `compare FOLDER` replays the stored answers of the folder, makes calls of its own, and cuts boxes of its
//! own. These are made with fixed seeds, so that two runs make the same calls. Exit status 0: all calls agreed,
//! enough were made, and each thing that must come up came up. Exit status 1: not so.
//!
//! `compare skin` counts the directed triangle sides of meshes instead (document 02, request 8).

mod calls;
mod check;
mod cutting;
mod far_out;
mod fields;
mod guarded;
mod library;
mod one_cell;
mod random;
mod refused;
mod replay;
mod skin;
mod tally;
mod wrapper;

use check::Checker;
use fields::FIELDS;
use random::Random;
use refused::{Spoil, LIMITS, SPOILS};
use std::process::ExitCode;
use tally::Tally;

/// The largest magnitude that is let in.
const CAP: f32 = oracle::model::DISTANCE_LIMIT;
const SEED: u64 = 0xBED0_5EED;
const SEED_OF_LONG_ROWS: u64 = 0x0102_4BED;
const SMALL_CALLS_A_FIELD: u32 = 25_000;
const LARGE_CALLS_A_FIELD: u32 = 30;
const LONG_CALLS_A_FIELD: u32 = 3;
const CALLS_A_SPOIL: u32 = 5_000;
const CALLS_A_PAIR: u32 = 800;
const CALLS_WITH_THREE: u32 = 40_000;
const CALLS_A_LIMIT: u32 = 1_000;

/// What a full run must reach, accepted and refused.
const ENOUGH: u64 = 200_000;

/// The run: its memory, its random numbers and the sum of what it counted.
struct Run {
    checker: Checker,
    random: Random,
    all: Tally,
}

fn main() -> ExitCode {
    let Some(folder) = std::env::args().nth(1) else {
        eprintln!("usage: compare FOLDER_OF_STORED_ANSWERS, or compare skin");
        return ExitCode::FAILURE;
    };
    if folder == "skin" {
        return if skin::run() {
            ExitCode::SUCCESS
        } else {
            ExitCode::FAILURE
        };
    }
    let stored_agree = replay::run(folder.as_ref()).unwrap_or_else(|error| {
        println!("{error}");
        false
    });
    let calls_agree = compare_at_scale();
    let cuts_agree = cutting::run();
    if stored_agree && calls_agree && cuts_agree {
        println!("ALL AGREE");
        ExitCode::SUCCESS
    } else {
        println!("NOT ALL IS AS IT SHOULD BE");
        ExitCode::FAILURE
    }
}

fn compare_at_scale() -> bool {
    let mut run = Run {
        checker: Checker::default(),
        random: Random::new(SEED),
        all: Tally::default(),
    };
    println!("seed {SEED:#x}");
    run.small_grids();
    run.large_grids();
    run.single_cells();
    run.long_rows();
    run.bad_calls();
    if run.all.differing == 0 {
        run.without_marks();
    }
    run.verdict()
}

impl Run {
    /// Makes the calls of one kind, prints what they covered and adds it up.
    fn part(&mut self, name: &str, make: impl Fn(&mut Run, &mut Tally)) {
        let mut tally = Tally::default();
        make(self, &mut tally);
        tally.print(name);
        self.all.add(&tally);
    }

    fn accepted(&mut self, tally: &mut Tally, call: &calls::OwnCall) {
        let room = calls::some_room(&mut self.random, &call.view());
        self.checker
            .check(tally, &call.view(), &room, &mut self.random);
    }

    fn small_grids(&mut self) {
        for field in FIELDS {
            self.part(
                &format!("{}, dimensions 1 to 8", field.name),
                |run, tally| {
                    for _ in 0..SMALL_CALLS_A_FIELD {
                        let call = calls::accepted(&mut run.random, &field, 8);
                        run.accepted(tally, &call);
                    }
                },
            );
        }
    }

    fn large_grids(&mut self) {
        self.part("all fields, dimensions 1 to 66", |run, tally| {
            for field in FIELDS {
                for _ in 0..LARGE_CALLS_A_FIELD {
                    let call = calls::accepted(&mut run.random, &field, 66);
                    run.accepted(tally, &call);
                }
                let call = calls::in_dimensions(&mut run.random, &field, [66; 3]);
                run.accepted(tally, &call);
            }
        });
    }

    fn single_cells(&mut self) {
        self.part("one cell, all 256 sign patterns", |run, tally| {
            for pattern in 0..256 {
                for size in 0..one_cell::SIZES {
                    let call = one_cell::cell(&mut run.random, pattern, size);
                    run.accepted(tally, &call);
                }
            }
        });
    }

    /// With random numbers of their own, so that the calls of the other parts stay what they are.
    fn long_rows(&mut self) {
        let random = std::mem::replace(&mut self.random, Random::new(SEED_OF_LONG_ROWS));
        self.part("all fields, rows of 1,022 to 4,097 points", |run, tally| {
            for field in FIELDS {
                for points in calls::LONG_ROWS {
                    for _ in 0..LONG_CALLS_A_FIELD {
                        let call = calls::with_row(&mut run.random, &field, points);
                        run.accepted(tally, &call);
                    }
                }
            }
        });
        self.random = random;
    }

    fn bad_calls(&mut self) {
        self.part("one thing spoiled", |run, tally| {
            for spoil in SPOILS {
                run.spoil(tally, &[spoil], CALLS_A_SPOIL);
            }
        });
        self.part("two things spoiled", |run, tally| {
            for (place, &later) in SPOILS.iter().enumerate() {
                for &earlier in &SPOILS[..place] {
                    run.spoil(tally, &[earlier, later], CALLS_A_PAIR);
                }
            }
        });
        self.part("three things spoiled", |run, tally| {
            for _ in 0..CALLS_WITH_THREE {
                let mut places: [usize; 3] = std::array::from_fn(|_| {
                    run.random.between(0, SPOILS.len() as u64 - 1) as usize
                });
                places.sort();
                run.spoil(tally, &places.map(|place| SPOILS[place]), 1);
            }
        });
        self.part(
            "dimensions at the limits, products that wrap",
            |run, tally| {
                for dims in LIMITS {
                    for _ in 0..CALLS_A_LIMIT {
                        run.limit(tally, dims);
                    }
                }
            },
        );
    }

    /// Kinds whose memory is not marked. A library that wrote outside its buffers would bring this
    /// program down, so that they come last, and only if all was well.
    fn without_marks(&mut self) {
        self.part("cells next to coordinate 2^24", |run, tally| {
            far_out::run(tally, &mut run.random)
        });
        self.part("the Rust wrapper, one buffer used again", |run, tally| {
            wrapper::run(tally, &mut run.random)
        });
    }

    fn spoil(&mut self, tally: &mut Tally, spoils: &[Spoil], calls: u32) {
        for _ in 0..calls {
            let (call, room) = refused::spoiled(&mut self.random, spoils);
            self.checker
                .check(tally, &call.view(), &room, &mut self.random);
        }
    }

    fn limit(&mut self, tally: &mut Tally, dims: [u32; 3]) {
        let call = refused::near_origin(&mut self.random, dims);
        let room = oracle::expected::room_needed(&call.view()).unwrap_or_default();
        let room = oracle::call::Room {
            map: call.grid.len(),
            ..room
        };
        self.checker
            .check(tally, &call.view(), &room, &mut self.random);
    }

    fn verdict(&self) -> bool {
        self.all.print("all calls");
        println!("    the model's faces for all max planes and for none are the Rust's on each accepted call");
        let missing = self.all.missing();
        let enough = self.all.accepted() >= ENOUGH && self.all.refused() >= ENOUGH;
        if !missing.is_empty() {
            println!("never came up: {}", missing.join(", "));
        }
        if !enough {
            println!("too few calls: {ENOUGH} accepted and {ENOUGH} refused are wanted");
        }
        self.all.differing == 0 && enough && missing.is_empty()
    }
}
