//! State and kept memory touched at random: the call stays within its lists, and every number is the model's.

use crate::fenced::Fenced;
use crate::model::World;
use crate::random::Random;
use crate::Answers;
use bed::Layers;

/// A distance of any bits, or a small one.
fn distance(random: &mut Random) -> f32 {
    if random.one_in(40) {
        f32::from_bits(random.word())
    } else {
        random.pick(&[1.0, -1.0, 2.0, -2.0, 0.0, -0.0, 0.5, -3.0])
    }
}

/// A number that may be a vertex's, or any.
fn number(random: &mut Random) -> u32 {
    match random.between(0, 5) {
        0 => random.word(),
        1 => u32::MAX - random.coordinate(0, 6),
        _ => random.coordinate(0, 12),
    }
}

fn words(random: &mut Random, n: usize) -> Vec<u32> {
    (0..n).map(|_| distance(random).to_bits()).collect()
}

fn numbers(random: &mut Random, n: usize) -> Vec<u32> {
    (0..n).map(|_| number(random)).collect()
}

fn state(random: &mut Random) -> Layers {
    let dims = [0; 3].map(|_| random.coordinate(2, 5));
    let min = dims.map(|d| random.coordinate(0, (d - 1).min(1)));
    let mut layers = Layers {
        dims,
        min,
        max: dims.map(|d| d - 1),
        max_plane: [0; 3].map(|_| if random.one_in(2) { 0 } else { random.word() }),
        taken: random.coordinate(0, dims[2] - min[2] - 1),
        next: number(random),
        first: number(random),
    };
    if random.one_in(8) {
        let any = if random.one_in(2) {
            random.word()
        } else {
            random.coordinate(0, 5)
        };
        let axis = random.between(0, 2) as usize;
        match random.between(0, 3) {
            0 => layers.dims[axis] = any,
            1 => layers.min[axis] = any,
            2 => layers.max[axis] = any,
            _ => layers.taken = any,
        }
    }
    layers
}

/// A length: mostly n, sometimes near it.
fn near(random: &mut Random, n: usize) -> usize {
    match random.between(0, 60) {
        0 => n.saturating_sub(1),
        1 => n + 1,
        2 => n / 2,
        _ => n,
    }
}

/// Equal, or not a number in both.
fn same_floats(got: &[u32], wanted: &[u32]) -> bool {
    let alike =
        |a: u32, b: u32| a == b || (f32::from_bits(a).is_nan() && f32::from_bits(b).is_nan());
    got.len() == wanted.len() && got.iter().zip(wanted).all(|(&a, &b)| alike(a, b))
}

/// No list of an offer here is longer than this.
const MOST: usize = 1024;

/// The lent lists, each against a page that nobody may touch, with marks on its other side.
pub struct Lent {
    layer: Fenced<u32>,
    words: [Fenced<u32>; 8],
    crossings: Fenced<u8>,
}

impl Lent {
    pub fn new() -> Self {
        Lent {
            layer: Fenced::new(MOST),
            words: std::array::from_fn(|_| Fenced::new(MOST)),
            crossings: Fenced::new(MOST),
        }
    }
}

fn floats(words: &mut [u32]) -> *mut f32 {
    words.as_mut_ptr().cast()
}

pub fn offer(random: &mut Random, lent: &mut Lent, answers: &mut Answers) -> Result<(), String> {
    let state = state(random);
    let plane = (state.dims[0].min(5) * state.dims[1].min(5)) as usize;
    let most = near(random, plane);
    let lengths = [0; 6].map(|_| {
        if random.one_in(8) {
            random.between(0, 6) as usize
        } else {
            near(random, most)
        }
    });
    let sizes = [0; 4].map(|_| near(random, plane));
    let part = 1 + random.between(0, 3) as usize;
    let mut world = World {
        state,
        distances: words(random, 2 * sizes[0]),
        map: numbers(random, 2 * sizes[1]),
        kept: words(random, 3 * sizes[2]),
        positions: words(random, 3 * lengths[0]),
        normals: words(random, 3 * lengths[1]),
        cells: numbers(random, 3 * lengths[2]),
        strides: numbers(random, lengths[3]),
        crossings: vec![9; lengths[4]],
        indices: numbers(random, 18 * lengths[5] / part),
    };
    let layer: Vec<f32> = (0..sizes[3]).map(|_| distance(random)).collect();

    let mut layers = world.state;
    let upper = random.one_in(2);
    let bits: Vec<u32> = layer.iter().map(|x| x.to_bits()).collect();
    lent.layer.hold(&bits, upper);
    lent.crossings.hold(&world.crossings, upper);
    let before = [
        &world.distances,
        &world.map,
        &world.kept,
        &world.positions,
        &world.normals,
        &world.cells,
        &world.strides,
        &world.indices,
    ];
    for (list, contents) in lent.words.iter_mut().zip(before) {
        list.hold(contents, upper);
    }
    let crossings = lent.crossings.lent();
    let [distances, map, kept, positions, normals, cells, strides, indices] =
        lent.words.each_mut().map(|list| list.lent());
    let offered = lent.layer.lent();
    let (mut v, mut i) = (7, 7);
    // SAFETY: the pointers and lengths come from slices that stand apart; every bit pattern is a float.
    let answer = unsafe {
        bed::raw::bed_layers_offer(
            &mut layers,
            floats(offered),
            offered.len(),
            floats(distances),
            distances.len(),
            map.as_mut_ptr(),
            map.len(),
            floats(kept),
            kept.len(),
            floats(positions),
            positions.len(),
            floats(normals),
            normals.len(),
            cells.as_mut_ptr(),
            cells.len(),
            strides.as_mut_ptr(),
            strides.len(),
            crossings.as_mut_ptr(),
            crossings.len(),
            indices.as_mut_ptr(),
            indices.len(),
            &mut v,
            &mut i,
        )
    };
    let said = world.offer(&layer);
    *answers.entry(answer).or_default() += 1;
    let agree = [
        (answer, v, i) == (said.answer, said.vertices, said.indices),
        layers == world.state,
        *offered == *bits,
        *distances == *world.distances,
        *map == *world.map,
        same_floats(kept, &world.kept),
        same_floats(positions, &world.positions),
        same_floats(normals, &world.normals),
        *cells == *world.cells,
        *strides == *world.strides,
        *crossings == *world.crossings,
        *indices == *world.indices,
        lent.layer.marks_kept() && lent.crossings.marks_kept(),
        lent.words.iter().all(|list| list.marks_kept()),
    ];
    if agree.iter().all(|&yes| yes) {
        Ok(())
    } else {
        Err(format!(
            "{state:?} answers {answer}, wanted {}: {agree:?}",
            said.answer
        ))
    }
}
