//! Compares the proved levels of the bed with a plain reading, whole and layer by layer, at three widths, refusals included.
//!
//! The grids are made with a fixed seed, so that two runs compare the same ones. Exit status 0: all
//! agreed, enough were compared, each answer came up and every law held. Exit status 1: not so.

#[path = "../../compare/src/random.rs"]
#[allow(dead_code)]
mod random;
mod reading;

use bed::raw::{self, BedBox, Levels, LevelsLayer};
use random::Random;
use reading::Asked;
use std::collections::BTreeMap;
use std::process::ExitCode;

const SEED: u64 = 0xBED0_0078;
/// What a run must reach, in calls of each kind and width.
const ENOUGH: u64 = 20_000;
const WHOLE_ANSWERS: [u32; 6] = [0, 1, 2, 3, 5, 78];
const LAYER_ANSWERS: [u32; 7] = [0, 1, 2, 3, 5, 77, 78];

/// A number that a grid may hold.
trait Number: Copy + Into<f32> {
    const WHOLE: Levels<Self>;
    const LAYER: LevelsLayer<Self>;
    /// Whether answer 5 can come up.
    const FLOAT: bool;
    fn any(random: &mut Random, negative: bool) -> Self;
    fn spoiled(random: &mut Random) -> Self;
}

impl Number for f32 {
    const WHOLE: Levels<Self> = raw::bed_levels;
    const LAYER: LevelsLayer<Self> = raw::bed_levels_layer;
    const FLOAT: bool = true;

    fn any(random: &mut Random, negative: bool) -> f32 {
        let size = match random.between(0, 9) {
            0 => 0.0,
            1 => f32::from_bits(1),
            2 => f32::from_bits(0x7D80_0000),
            3 => f32::from_bits(random.between(0, 0x7D80_0000) as u32),
            4 => random.between(1, 8) as f32,
            _ => random.signed_unit().abs(),
        };
        if negative {
            -size
        } else {
            size
        }
    }

    fn spoiled(random: &mut Random) -> f32 {
        f32::from_bits(random.pick(&[
            0x7D80_0001,
            0xFD80_0001,
            0x7F80_0000,
            0xFF80_0000,
            0x7FC0_0000,
        ]))
    }
}

impl Number for i16 {
    const WHOLE: Levels<Self> = raw::bed_levels_i16;
    const LAYER: LevelsLayer<Self> = raw::bed_levels_layer_i16;
    const FLOAT: bool = false;

    fn any(random: &mut Random, negative: bool) -> i16 {
        let size = random.between(0, 32_767) as i16 >> random.between(0, 15);
        if negative {
            -size - i16::from(random.one_in(2))
        } else {
            size
        }
    }

    fn spoiled(random: &mut Random) -> i16 {
        random.pick(&[i16::MIN, i16::MAX])
    }
}

impl Number for i8 {
    const WHOLE: Levels<Self> = raw::bed_levels_i8;
    const LAYER: LevelsLayer<Self> = raw::bed_levels_layer_i8;
    const FLOAT: bool = false;

    fn any(random: &mut Random, negative: bool) -> i8 {
        let size = random.between(0, 127) as i8 >> random.between(0, 7);
        if negative {
            -size - i8::from(random.one_in(2))
        } else {
            size
        }
    }

    fn spoiled(random: &mut Random) -> i8 {
        random.pick(&[i8::MIN, i8::MAX])
    }
}

#[derive(Default)]
struct Tally {
    whole: BTreeMap<u32, u64>,
    layer: BTreeMap<u32, u64>,
    told: u64,
    silent: u64,
    differing: u64,
    in_turn: u64,
}

fn floats<D: Number>(list: &[D]) -> Vec<f32> {
    list.iter().map(|&d| d.into()).collect()
}

fn bits(list: &[f32]) -> Vec<u32> {
    list.iter().map(|x| x.to_bits()).collect()
}

fn box_of(asked: Asked, random: &mut Random) -> BedBox {
    BedBox {
        dims: asked.dims,
        min: asked.min,
        max: asked.max,
        max_plane: [0; 3].map(|_| random.word()),
    }
}

/// Room for so many levels, with any bits in it.
fn lent(random: &mut Random, n: usize) -> Vec<f32> {
    (0..n).map(|_| f32::from_bits(random.word())).collect()
}

impl Tally {
    /// One call on a whole grid, by both: the answer, and the list afterwards.
    fn whole<D: Number>(
        &mut self,
        random: &mut Random,
        sdf: &[D],
        asked: Asked,
        old: &[f32],
    ) -> (u32, Vec<f32>) {
        let bed_box = box_of(asked, random);
        let mut out = old.to_vec();
        // SAFETY: the pointers and lengths come from slices and vectors of their own.
        let answer = unsafe {
            D::WHOLE(
                sdf.as_ptr(),
                sdf.len(),
                &bed_box,
                out.as_mut_ptr(),
                out.len(),
            )
        };
        let mut wanted = old.to_vec();
        let want = reading::whole(&floats(sdf), asked, &mut wanted);
        *self.whole.entry(answer).or_default() += 1;
        self.differing += u64::from((answer, bits(&out)) != (want, bits(&wanted)));
        if answer == 0 {
            let levels = &out[..asked.columns()];
            let silent = levels.iter().filter(|&&level| level == -1.0).count() as u64;
            self.silent += silent;
            self.told += levels.len() as u64 - silent;
        }
        (answer, out)
    }

    /// One call with a layer, by both.
    fn layer<D: Number>(
        &mut self,
        random: &mut Random,
        below: &[D],
        layer: &[D],
        asked: Asked,
        z: u32,
        old: &[f32],
    ) -> (u32, Vec<f32>) {
        let bed_box = box_of(asked, random);
        let mut out = old.to_vec();
        // SAFETY: as above.
        let answer = unsafe {
            D::LAYER(
                below.as_ptr(),
                below.len(),
                layer.as_ptr(),
                layer.len(),
                &bed_box,
                z,
                out.as_mut_ptr(),
                out.len(),
            )
        };
        let mut wanted = old.to_vec();
        let want = reading::layer(&floats(below), &floats(layer), asked, z, &mut wanted);
        *self.layer.entry(answer).or_default() += 1;
        self.differing += u64::from((answer, bits(&out)) != (want, bits(&wanted)));
        (answer, out)
    }

    fn print<D: Number>(&self, name: &str) -> bool {
        println!(
            "{name}: whole {}, layers {}, grids whose layers in turn leave the whole call's levels {}; columns told {}, without a level {}; differing {}",
            self.whole.values().sum::<u64>(),
            self.layer.values().sum::<u64>(),
            self.in_turn,
            self.told,
            self.silent,
            self.differing
        );
        println!(
            "    whole by answer {:?}, layers by answer {:?}",
            self.whole, self.layer
        );
        let came = |seen: &BTreeMap<u32, u64>, all: &[u32]| {
            all.iter()
                .all(|a| seen.contains_key(a) == (D::FLOAT || *a != 5))
        };
        self.differing == 0
            && self.whole.values().sum::<u64>() >= ENOUGH
            && self.layer.values().sum::<u64>() >= ENOUGH
            && self.in_turn >= ENOUGH / 4
            && self.told > 0
            && self.silent > 0
            && came(&self.whole, &WHOLE_ANSWERS)
            && came(&self.layer, &LAYER_ANSWERS)
    }
}

/// A box in dimensions of its own, now and then one that is refused.
fn asked(random: &mut Random) -> Asked {
    let dims = [0; 3].map(|_| random.coordinate(1, 7));
    let mut asked = Asked {
        dims,
        min: [0; 3],
        max: [0; 3],
    };
    for a in 0..3 {
        asked.min[a] = random.coordinate(0, dims[a] - 1);
        asked.max[a] = random.coordinate(asked.min[a], dims[a] - 1);
    }
    asked
}

/// The same with one number spoiled.
fn spoil(random: &mut Random, mut asked: Asked) -> Asked {
    let a = random.between(0, 2) as usize;
    match random.between(0, 3) {
        0 => asked.dims[a] = random.pick(&[0, 16_777_218, u32::MAX]),
        1 => asked.max[a] = asked.dims[a],
        2 => asked.min[a] = asked.max[a] + 1,
        _ => asked.dims = [16_777_217; 3],
    }
    asked
}

fn grid<D: Number>(random: &mut Random, n: usize) -> Vec<D> {
    let negatives = random.pick(&[1, 2, 5, 40]);
    (0..n)
        .map(|_| {
            let negative = random.one_in(negatives);
            D::any(random, negative)
        })
        .collect()
}

fn compare<D: Number>(random: &mut Random) -> Tally {
    let mut tally = Tally::default();
    for _ in 0..40_000 {
        let good = asked(random);
        let plane = good.plane() as usize;
        let mut sdf: Vec<D> = grid(random, plane * good.dims[2] as usize);
        if random.one_in(4) {
            let at = random.between(0, sdf.len() as u64 - 1) as usize;
            sdf[at] = D::spoiled(random);
        }
        let room = if random.one_in(10) {
            random.between(0, good.columns() as u64) as usize
        } else {
            good.columns() + random.between(0, 3) as usize
        };
        let old = lent(random, room);
        let asked = if random.one_in(10) {
            spoil(random, good)
        } else {
            good
        };
        let cut = usize::from(random.one_in(12));
        let (answer, left) = tally.whole(random, &sdf[cut..], asked, &old);

        // one layer, with lists of any kind
        let z = random.coordinate(0, good.dims[2]);
        let lists = |random: &mut Random| {
            let n = random.pick(&[plane, plane, plane, plane, plane, 0, plane + 1]);
            let mut list: Vec<D> = grid(random, n);
            if n > 0 && random.one_in(4) {
                let at = random.between(0, n as u64 - 1) as usize;
                list[at] = D::spoiled(random);
            }
            list
        };
        let lower = if z == good.min[2] && !random.one_in(5) {
            Vec::new()
        } else {
            lists(random)
        };
        let upper = lists(random);
        tally.layer(random, &lower, &upper, asked, z, &old);

        // all layers in turn leave what the whole call leaves
        if answer == 0 {
            let mut so_far = old.clone();
            let mut fault = false;
            for z in asked.min[2]..=asked.max[2] {
                let at = plane * z as usize;
                let below = if z == asked.min[2] {
                    &sdf[..0]
                } else {
                    &sdf[at - plane..at]
                };
                let (said, next) =
                    tally.layer(random, below, &sdf[at..at + plane], asked, z, &so_far);
                fault |= said != 0;
                so_far = next;
            }
            tally.in_turn += 1;
            tally.differing += u64::from(fault || bits(&so_far) != bits(&left));
        }
    }
    tally
}

fn main() -> ExitCode {
    println!("seed {SEED:#x}");
    let mut random = Random::new(SEED);
    let good = [
        compare::<f32>(&mut random).print::<f32>("floats"),
        compare::<i16>(&mut random).print::<i16>("16-bit numbers"),
        compare::<i8>(&mut random).print::<i8>("8-bit numbers"),
    ];
    if good.iter().all(|&g| g) {
        println!("ALL AGREE");
        ExitCode::SUCCESS
    } else {
        println!("NOT ALL AGREE");
        ExitCode::FAILURE
    }
}
