//! Compares the proved counts of cells with a plain reading, whole and layer by layer, at three widths, refusals included.
//!
//! The grids are made with a fixed seed, so that two runs compare the same ones. Exit status 0: all agreed, enough were compared, each answer came up and all
//! layers in turn left the whole call's counts. Exit status 1: not so.

#[path = "../../compare/src/random.rs"]
#[allow(dead_code)]
mod random;
mod reading;

use bed::raw::{self, BedBox, BedCounts, Tally, TallyLayer};
use random::Random;
use reading::{Asked, Counts};
use std::collections::BTreeMap;
use std::process::ExitCode;

const SEED: u64 = 0xBED0_0091;
/// What a run must reach, in calls of each kind and width.
const ENOUGH: u64 = 20_000;
const WHOLE_ANSWERS: [u32; 5] = [0, 1, 2, 3, 5];
const LAYER_ANSWERS: [u32; 7] = [0, 1, 2, 3, 5, 91, 92];

/// A number that a grid may hold, from few values, so that signs and zeros are what matters.
trait Number: Copy + Into<f32> + 'static {
    const WHOLE: Tally<Self>;
    const LAYER: TallyLayer<Self>;
    const BELOW: [Self; 3];
    const ABOVE: [Self; 4];
    /// What answer 5 is for, where it can come up.
    const SPOILED: &'static [Self];
}

impl Number for f32 {
    const WHOLE: Tally<Self> = raw::bed_tally;
    const LAYER: TallyLayer<Self> = raw::bed_tally_layer;
    const BELOW: [f32; 3] = [-1.0, -f32::from_bits(1), f32::from_bits(0xFD80_0000)];
    const ABOVE: [f32; 4] = [0.0, -0.0, 1.0, f32::from_bits(0x7D80_0000)];
    const SPOILED: &'static [f32] = &[
        f32::NAN,
        f32::INFINITY,
        f32::NEG_INFINITY,
        f32::from_bits(0x7D80_0001),
        f32::from_bits(0xFD80_0001),
    ];
}

impl Number for i16 {
    const WHOLE: Tally<Self> = raw::bed_tally_i16;
    const LAYER: TallyLayer<Self> = raw::bed_tally_layer_i16;
    const BELOW: [i16; 3] = [-1, -256, i16::MIN];
    const ABOVE: [i16; 4] = [0, 1, 255, i16::MAX];
    const SPOILED: &'static [i16] = &[];
}

impl Number for i8 {
    const WHOLE: Tally<Self> = raw::bed_tally_i8;
    const LAYER: TallyLayer<Self> = raw::bed_tally_layer_i8;
    const BELOW: [i8; 3] = [-1, -2, i8::MIN];
    const ABOVE: [i8; 4] = [0, 1, 2, i8::MAX];
    const SPOILED: &'static [i8] = &[];
}

#[derive(Default)]
struct Seen {
    whole: BTreeMap<u32, u64>,
    layer: BTreeMap<u32, u64>,
    cells: Counts,
    differing: u64,
    in_turn: u64,
}

fn floats<D: Number>(list: &[D]) -> Vec<f32> {
    list.iter().map(|&d| d.into()).collect()
}

/// The box as it is passed: a flag is set by any word but 0.
fn box_of(asked: Asked, random: &mut Random) -> BedBox {
    BedBox {
        dims: asked.dims,
        min: asked.min,
        max: asked.max,
        max_plane: asked
            .plane
            .map(|set| if set { random.word() | 4 } else { 0 }),
    }
}

fn lent(counts: Counts) -> BedCounts {
    let [whole, vertices, indices] = counts;
    BedCounts {
        whole,
        vertices,
        indices,
    }
}

fn left(counts: BedCounts) -> Counts {
    [counts.whole, counts.vertices, counts.indices]
}

impl Seen {
    fn whole<D: Number>(
        &mut self,
        random: &mut Random,
        sdf: &[D],
        asked: Asked,
        old: Counts,
    ) -> (u32, Counts) {
        let mut counts = lent(old);
        // SAFETY: pointer and length come from a slice; the box and the counts are variables of their own.
        let answer =
            unsafe { D::WHOLE(sdf.as_ptr(), sdf.len(), &box_of(asked, random), &mut counts) };
        let mut wanted = old;
        let want = reading::whole(&floats(sdf), asked, &mut wanted);
        *self.whole.entry(answer).or_default() += 1;
        self.differing += u64::from((answer, left(counts)) != (want, wanted));
        if answer == 0 {
            for (sum, count) in self.cells.iter_mut().zip(wanted) {
                *sum += count;
            }
        }
        (answer, left(counts))
    }

    fn layer<D: Number>(
        &mut self,
        random: &mut Random,
        below: &[D],
        layer: &[D],
        asked: Asked,
        z: u32,
        old: Counts,
    ) -> (u32, Counts) {
        let mut counts = lent(old);
        // SAFETY: as above.
        let answer = unsafe {
            D::LAYER(
                below.as_ptr(),
                below.len(),
                layer.as_ptr(),
                layer.len(),
                &box_of(asked, random),
                z,
                &mut counts,
            )
        };
        let mut wanted = old;
        let want = reading::layer(&floats(below), &floats(layer), asked, z, &mut wanted);
        *self.layer.entry(answer).or_default() += 1;
        self.differing += u64::from((answer, left(counts)) != (want, wanted));
        (answer, left(counts))
    }

    fn print<D: Number>(&self, name: &str) -> bool {
        println!(
            "{name}: whole {}, layers {}, grids whose layers in turn leave the whole call's counts {}; cells below {}, on the surface {}, faces {}; differing {}",
            self.whole.values().sum::<u64>(),
            self.layer.values().sum::<u64>(),
            self.in_turn,
            self.cells[0],
            self.cells[1],
            self.cells[2] / 6,
            self.differing
        );
        println!(
            "    whole by answer {:?}, layers by answer {:?}",
            self.whole, self.layer
        );
        let came = |seen: &BTreeMap<u32, u64>, all: &[u32]| {
            all.iter()
                .all(|a| seen.contains_key(a) == (!D::SPOILED.is_empty() || *a != 5))
        };
        self.differing == 0
            && self.whole.values().sum::<u64>() >= ENOUGH
            && self.layer.values().sum::<u64>() >= ENOUGH
            && self.in_turn >= ENOUGH / 4
            && self.cells.iter().all(|&count| count > 0)
            && came(&self.whole, &WHOLE_ANSWERS)
            && came(&self.layer, &LAYER_ANSWERS)
    }
}

/// A box in dimensions of its own, with any max plane.
fn asked(random: &mut Random) -> Asked {
    let dims = [0; 3].map(|_| random.coordinate(1, 7));
    let mut asked = Asked {
        dims,
        min: [0; 3],
        max: [0; 3],
        plane: [0; 3].map(|_| random.one_in(2)),
    };
    // every other box is as large as the grid allows, or nearly, so that it has faces
    let large = random.one_in(2);
    for a in 0..3 {
        let last = dims[a] - 1;
        asked.min[a] = random.coordinate(0, if large { last.min(1) } else { last });
        asked.max[a] = random.coordinate(if large { last } else { asked.min[a] }, last);
    }
    asked
}

/// The same with one number spoiled.
fn spoil(random: &mut Random, mut asked: Asked) -> Asked {
    let a = random.between(0, 2) as usize;
    match random.between(0, 3) {
        0 => asked.dims[a] = random.pick(&[0, 16_777_218, u32::MAX]),
        1 => asked.max[a] = asked.dims[a],
        2 => asked.min[a] = asked.max[a] + 1,
        _ => asked.dims = [16_777_217; 3],
    }
    asked
}

/// So many distances, most of them below zero where a cell is to lie wholly there, and now and then one that is spoiled.
fn grid<D: Number>(random: &mut Random, n: usize) -> Vec<D> {
    let others = random.pick(&[2, 5, 12, 60]);
    let mut list: Vec<D> = (0..n)
        .map(|_| {
            if random.one_in(others) {
                random.pick(&D::ABOVE)
            } else {
                random.pick(&D::BELOW)
            }
        })
        .collect();
    if n > 0 && !D::SPOILED.is_empty() && random.one_in(4) {
        let at = random.between(0, n as u64 - 1) as usize;
        list[at] = random.pick(D::SPOILED);
    }
    list
}

/// Counts of any size, round the limit among them.
fn any_counts(random: &mut Random) -> Counts {
    [0; 3].map(|_| match random.between(0, 7) {
        0 => u64::MAX,
        1 => (1 << 60) + random.between(0, 1),
        _ => random.between(0, 1 << 40),
    })
}

fn compare<D: Number>(random: &mut Random) -> Seen {
    let mut seen = Seen::default();
    for _ in 0..40_000 {
        let good = asked(random);
        let plane = good.layer_len() as usize;
        let sdf: Vec<D> = grid(random, plane * good.dims[2] as usize);
        let asked = if random.one_in(10) {
            spoil(random, good)
        } else {
            good
        };
        let old = any_counts(random);
        let cut = usize::from(random.one_in(12));
        let (answer, told) = seen.whole(random, &sdf[cut..], asked, old);

        // one layer, with lists of any length
        let z = random.coordinate(0, good.dims[2]);
        let list = |random: &mut Random| -> Vec<D> {
            let n = random.pick(&[plane, plane, plane, plane, plane, 0, plane + 1]);
            grid(random, n)
        };
        let lower = if z == good.min[2] && !random.one_in(5) {
            Vec::new()
        } else {
            list(random)
        };
        let upper = list(random);
        seen.layer(random, &lower, &upper, asked, z, old);

        // all layers in turn leave what the whole call leaves
        if answer == 0 {
            let mut so_far = old;
            let mut fault = false;
            for z in asked.min[2]..=asked.max[2] {
                let at = plane * z as usize;
                let below = if z == asked.min[2] {
                    &sdf[..0]
                } else {
                    &sdf[at - plane..at]
                };
                let (said, next) =
                    seen.layer(random, below, &sdf[at..at + plane], asked, z, so_far);
                fault |= said != 0;
                so_far = next;
            }
            seen.in_turn += 1;
            seen.differing += u64::from(fault || so_far != told);
        }
    }
    seen
}

fn main() -> ExitCode {
    println!("seed {SEED:#x}");
    let mut random = Random::new(SEED);
    let good = [
        compare::<f32>(&mut random).print::<f32>("floats"),
        compare::<i16>(&mut random).print::<i16>("16-bit numbers"),
        compare::<i8>(&mut random).print::<i8>("8-bit numbers"),
    ];
    if good.iter().all(|&g| g) {
        println!("ALL AGREE");
        ExitCode::SUCCESS
    } else {
        println!("NOT ALL AGREE");
        ExitCode::FAILURE
    }
}
