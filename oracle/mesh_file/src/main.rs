//! Compares the proved mesh files with a plain reading of document 02's request 2.
//!
//! The files are made with a fixed seed, so that two runs compare the same ones. Exit status 0: all
//! agreed, enough were compared, and each answer came up. Exit status 1: not so.

mod check;
mod made;
mod marked;
#[path = "../../compare/src/random.rs"]
#[allow(dead_code)]
mod random;
mod reading;

use check::{Outcome, Room};
use random::Random;
use reading::Mesh;
use std::collections::BTreeMap;
use std::process::ExitCode;

const SEED: u64 = 0xBED0_F11E;
const MESHES: u32 = 600;

/// What a run must reach, in files read.
const ENOUGH: u64 = 100_000;
const READ_ANSWERS: [u32; 10] = [0, 21, 22, 23, 24, 25, 26, 27, 28, 29];
const CHECK_ANSWERS: [u32; 9] = [0, 21, 22, 23, 24, 25, 26, 27, 28];
const WRITE_ANSWERS: [u32; 5] = [0, 26, 27, 29, 30];

/// The answers of one kind of calls, and how many did not agree.
#[derive(Default)]
struct Tally {
    answers: BTreeMap<u32, u64>,
    differing: u64,
}

impl Tally {
    fn count(&mut self, outcome: Outcome) {
        *self.answers.entry(outcome.answer).or_default() += 1;
        self.differing += u64::from(!outcome.agrees);
    }

    fn add(&mut self, other: &Tally) {
        for (&answer, calls) in &other.answers {
            *self.answers.entry(answer).or_default() += calls;
        }
        self.differing += other.differing;
    }

    fn calls(&self) -> u64 {
        self.answers.values().sum()
    }

    fn print(&self, name: &str) {
        let answers: Vec<String> = self
            .answers
            .iter()
            .map(|(answer, calls)| format!("{answer}: {calls}"))
            .collect();
        println!("{name}: {}, differing {}", self.calls(), self.differing);
        println!("    by answer {}", answers.join(", "));
    }

    fn lacks(&self, wanted: &[u32]) -> bool {
        wanted
            .iter()
            .any(|answer| !self.answers.contains_key(answer))
    }
}

/// What a kind of files or meshes came to: the reads or the writes, and the checks of the same files.
#[derive(Default)]
struct Tallies {
    calls: Tally,
    checks: Tally,
}

impl Tallies {
    fn read(&mut self, file: &[u8], room: Room) {
        self.calls.count(check::read(file, room));
        self.checks.count(check::check(file));
    }

    fn write(&mut self, mesh: &Mesh, room: usize) {
        self.calls.count(check::write(mesh, room));
    }
}

/// A good mesh and its file, from which the calls of every kind are made.
struct Good {
    mesh: Mesh,
    file: Vec<u8>,
}

/// A kind of files or meshes: its name, and the calls made of one good file.
struct Kind {
    name: &'static str,
    calls: fn(&Good, &mut Random, &mut Tallies),
}

const READS: [Kind; 7] = [
    Kind {
        name: "good files, rooms about the right one",
        calls: good_files,
    },
    Kind {
        name: "cut at every length",
        calls: cut,
    },
    Kind {
        name: "one byte changed, at every place",
        calls: one_byte,
    },
    Kind {
        name: "words changed under a right sum",
        calls: under_right_sum,
    },
    Kind {
        name: "records exchanged, doubled or left out",
        calls: exchanged,
    },
    Kind {
        name: "bytes after the closing record",
        calls: longer,
    },
    Kind {
        name: "bytes of no meaning",
        calls: noise,
    },
];

const WRITES: [Kind; 2] = [
    Kind {
        name: "good meshes, rooms about the right one",
        calls: good_meshes,
    },
    Kind {
        name: "meshes with one thing spoiled",
        calls: spoiled_meshes,
    },
];

fn good_files(good: &Good, random: &mut Random, tally: &mut Tallies) {
    for more in 0..4 {
        tally.read(&good.file, Room::for_mesh(&good.mesh, more));
    }
    let by = 5 + random.between(1, 4) as usize;
    let shorten: [fn(&mut Room) -> &mut usize; 3] = [
        |room| &mut room.positions,
        |room| &mut room.normals,
        |room| &mut room.indices,
    ];
    for list in shorten {
        let mut room = Room::for_mesh(&good.mesh, 5);
        let length = list(&mut room);
        *length = length.saturating_sub(by);
        tally.read(&good.file, room);
    }
}

fn cut(good: &Good, random: &mut Random, tally: &mut Tallies) {
    let room = Room::for_mesh(&good.mesh, random.between(0, 9) as usize);
    for length in 0..good.file.len() {
        tally.read(&good.file[..length], room);
    }
}

fn one_byte(good: &Good, random: &mut Random, tally: &mut Tallies) {
    let room = Room::for_mesh(&good.mesh, 3);
    let mut file = good.file.clone();
    for at in 0..file.len() {
        file[at] = good.file[at].wrapping_add(random.between(1, 255) as u8);
        tally.read(&file, room);
        file[at] = good.file[at];
    }
}

fn under_right_sum(good: &Good, random: &mut Random, tally: &mut Tallies) {
    for _ in 0..80 {
        let mut file = made::resealed(random, &good.file);
        if random.one_in(4) {
            file = made::resealed(random, &file);
        }
        if random.one_in(6) {
            file.push(0);
        }
        tally.read(&file, Room::for_mesh(&good.mesh, 9));
    }
}

fn exchanged(good: &Good, random: &mut Random, tally: &mut Tallies) {
    for _ in 0..40 {
        let file = made::exchanged(random, &good.file);
        tally.read(&file, Room::for_mesh(&good.mesh, 3));
    }
}

fn longer(good: &Good, random: &mut Random, tally: &mut Tallies) {
    for more in [1, 2, 31, 32, 33, 64] {
        let behind = made::bytes(random, more);
        let again = &good.file[..more.min(good.file.len())];
        for behind in [&behind, again] {
            let file = [&good.file, behind].concat();
            tally.read(&file, Room::for_mesh(&good.mesh, 3));
        }
    }
}

fn noise(good: &Good, random: &mut Random, tally: &mut Tallies) {
    for _ in 0..10 {
        let length = random.between(0, 199) as usize;
        let file = made::bytes(random, length);
        tally.read(&file, Room::for_mesh(&good.mesh, 3));
    }
}

fn good_meshes(good: &Good, _: &mut Random, tally: &mut Tallies) {
    let length = good.file.len();
    for room in [length, length + 1, length + 40, length - 1, length - 32, 0] {
        tally.write(&good.mesh, room);
    }
}

fn spoiled_meshes(good: &Good, random: &mut Random, tally: &mut Tallies) {
    for _ in 0..12 {
        let mesh = made::spoiled(random, &good.mesh);
        let room = random.pick(&[good.file.len() + 64, good.file.len(), 3]);
        tally.write(&mesh, room);
    }
}

/// Makes the calls of each kind for every good file and prints what they covered.
fn run(kinds: &[Kind], goods: &[Good], random: &mut Random, name: &str) -> Tallies {
    let mut all = Tallies::default();
    for kind in kinds {
        let mut tally = Tallies::default();
        for good in goods {
            (kind.calls)(good, random, &mut tally);
        }
        tally.calls.print(kind.name);
        all.calls.add(&tally.calls);
        all.checks.add(&tally.checks);
    }
    all.calls.print(name);
    all
}

fn main() -> ExitCode {
    println!("seed {SEED:#x}");
    let mut random = Random::new(SEED);
    let goods: Vec<Good> = (0..MESHES)
        .map(|number| {
            let most = if number % 20 == 0 { 40 } else { 5 };
            let mesh = made::mesh(&mut random, most);
            let file = reading::write(&mesh, usize::MAX).expect("the mesh can be written");
            Good { mesh, file }
        })
        .collect();
    let Tallies {
        calls: reads,
        checks,
    } = run(&READS, &goods, &mut random, "all files read");
    checks.print("the same files checked, with nothing lent");
    let writes = run(&WRITES, &goods, &mut random, "all meshes written").calls;
    let agree = reads.differing == 0 && checks.differing == 0 && writes.differing == 0;
    let enough = reads.calls() >= ENOUGH;
    let complete = !reads.lacks(&READ_ANSWERS)
        && !checks.lacks(&CHECK_ANSWERS)
        && !writes.lacks(&WRITE_ANSWERS);
    if !enough {
        println!("too few files: {ENOUGH} are wanted");
    }
    if !complete {
        println!("an answer never came up");
    }
    if agree && enough && complete {
        println!("ALL AGREE");
        ExitCode::SUCCESS
    } else {
        println!("NOT ALL IS AS IT SHOULD BE");
        ExitCode::FAILURE
    }
}
