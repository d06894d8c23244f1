//! A grid fed layer by layer, with refused offers among the layers, against the whole call.

use crate::fields::Field;
use crate::random::Random;
use crate::Answers;
use bed::{Kept, LayerLent, Layers, Lent, MaxPlane};

pub struct Fed {
    pub layers: u64,
    pub vertices: u64,
}

/// The lists of a mesh, with room for n vertices.
#[derive(Clone, PartialEq)]
struct Lists {
    positions: Vec<u32>,
    normals: Vec<u32>,
    cells: Vec<u32>,
    strides: Vec<u32>,
    crossings: Vec<u8>,
    indices: Vec<u32>,
}

impl Lists {
    fn of(n: usize) -> Self {
        Lists {
            positions: vec![7; 3 * n],
            normals: vec![7; 3 * n],
            cells: vec![7; 3 * n],
            strides: vec![7; n],
            crossings: vec![7; n],
            indices: vec![7; 18 * n],
        }
    }

    fn cut(&mut self, v: usize, i: usize) {
        self.positions.truncate(3 * v);
        self.normals.truncate(3 * v);
        self.cells.truncate(3 * v);
        self.strides.truncate(v);
        self.crossings.truncate(v);
        self.indices.truncate(i);
    }

    fn join(&mut self, other: &Lists) {
        self.positions.extend(&other.positions);
        self.normals.extend(&other.normals);
        self.cells.extend(&other.cells);
        self.strides.extend(&other.strides);
        self.crossings.extend(&other.crossings);
        self.indices.extend(&other.indices);
    }

    fn layer_lent(&mut self) -> LayerLent<'_> {
        LayerLent {
            positions: as_floats(&mut self.positions),
            normals: as_floats(&mut self.normals),
            cells: &mut self.cells,
            strides: &mut self.strides,
            crossings: &mut self.crossings,
            indices: &mut self.indices,
        }
    }
}

pub fn as_floats(words: &mut [u32]) -> &mut [f32] {
    // SAFETY: an f32 has the size and alignment of a u32, and every bit pattern is one.
    unsafe { std::slice::from_raw_parts_mut(words.as_mut_ptr().cast(), words.len()) }
}

#[derive(Clone, PartialEq)]
struct Memory {
    distances: Vec<u32>,
    map: Vec<u32>,
    positions: Vec<u32>,
}

/// One offer; a refusal must leave everything.
fn offer(
    state: &mut Layers,
    layer: &[f32],
    memory: &mut Memory,
    lists: &mut Lists,
    answers: &mut Answers,
) -> Result<(u32, u64, u64), String> {
    let before = (*state, memory.clone(), lists.clone());
    let mut kept = Kept {
        distances: as_floats(&mut memory.distances),
        map: &mut memory.map,
        positions: as_floats(&mut memory.positions),
    };
    let said = state.offer(layer, &mut kept, &mut lists.layer_lent());
    let (answer, counts) = match said {
        Ok(counts) => (0, counts),
        Err(bed::LayerRefusal::VerticesShort(c)) => (6, c),
        Err(bed::LayerRefusal::IndicesShort(c)) => (7, c),
        Err(refusal) => (refusal.number(), Default::default()),
    };
    *answers.entry(answer).or_default() += 1;
    if answer != 0 && (before.0 != *state || before.1 != *memory || before.2 != *lists) {
        return Err(format!("answer {answer} changed something"));
    }
    Ok((answer, counts.vertices, counts.indices))
}

pub fn feed(random: &mut Random, field: Field, answers: &mut Answers) -> Result<Fed, String> {
    let dims = [0; 3].map(|_| random.coordinate(1, 6));
    let mut min = [0; 3];
    let mut max = dims.map(|d| d - 1);
    for a in 0..3 {
        if random.one_in(2) {
            min[a] = random.coordinate(0, dims[a] - 1);
            max[a] = random.coordinate(min[a], dims[a] - 1);
        }
    }
    let plane = (dims[0] * dims[1]) as usize;
    let size = plane * dims[2] as usize;
    let mut grid = vec![0.0; size];
    field.fill(random, dims, &mut grid);
    let flags = MaxPlane {
        x: random.one_in(2),
        y: random.one_in(2),
        z: random.one_in(2),
    };
    let mut whole = Lists::of(size);
    let mut map: Vec<u32> = (0..size).map(|_| random.word()).collect();
    let said = bed::surface_nets_lent(
        &grid,
        dims,
        min,
        max,
        flags,
        &mut Lent {
            positions: as_floats(&mut whole.positions),
            normals: as_floats(&mut whole.normals),
            cells: &mut whole.cells,
            strides: &mut whole.strides,
            crossings: &mut whole.crossings,
            stride_to_index: &mut map,
            indices: &mut whole.indices,
        },
    );
    let counts = match said {
        Ok(counts) => counts,
        // A grid beyond the cap has no whole call to compare with.
        Err(bed::Refusal::Distance) => {
            return Ok(Fed {
                layers: 0,
                vertices: 0,
            })
        }
        Err(refusal) => return Err(format!("the whole call: {refusal}")),
    };
    whole.cut(counts.vertices as usize, counts.indices as usize);

    let mut memory = Memory {
        distances: (0..2 * plane).map(|_| random.word()).collect(),
        map: (0..2 * plane).map(|_| random.word()).collect(),
        positions: (0..3 * plane).map(|_| random.word()).collect(),
    };
    let before = memory.clone();
    let mut state = Layers::start(
        dims,
        min,
        max,
        flags,
        &Kept {
            distances: as_floats(&mut memory.distances),
            map: &mut memory.map,
            positions: as_floats(&mut memory.positions),
        },
    )
    .map_err(|refusal| format!("start: {refusal}"))?;
    if before != memory {
        return Err("the start wrote to kept memory".into());
    }
    let mut joined = Lists::of(0);
    for z in min[2]..=max[2] {
        let from = plane * z as usize;
        let layer = &grid[from..from + plane];
        refusals(
            random,
            &mut state,
            layer,
            &mut memory,
            answers,
            min,
            max,
            dims,
        )?;
        let mut lists = Lists::of(plane);
        let (answer, v, i) = offer(&mut state, layer, &mut memory, &mut lists, answers)?;
        if answer != 0 {
            return Err(format!("a layer got {answer}"));
        }
        lists.cut(v as usize, i as usize);
        joined.join(&lists);
    }
    let (answer, v, i) = offer(&mut state, &[], &mut memory, &mut Lists::of(0), answers)?;
    if (answer, v, i) != (8, 0, 0) {
        return Err(format!("a further layer got {answer}, {v}, {i}"));
    }
    if joined != whole {
        return Err(format!("differs: dims {dims:?}, box {min:?} to {max:?}"));
    }
    for z in max[2].saturating_sub(1).max(min[2])..=max[2] {
        for y in 0..dims[1] {
            for x in 0..dims[0] {
                let inside = min[0] <= x && x <= max[0] && min[1] <= y && y <= max[1];
                let place = (x + dims[0] * y) as usize;
                let at = plane * ((z - min[2]) as usize % 2) + place;
                let wanted = if inside {
                    map[plane * z as usize + place]
                } else {
                    before.map[at]
                };
                if memory.map[at] != wanted {
                    return Err(format!("the kept map differs at {x}, {y}, {z}"));
                }
            }
        }
    }
    Ok(Fed {
        layers: (max[2] - min[2] + 1) as u64,
        vertices: counts.vertices,
    })
}

/// Offers that are refused, before the layer itself.
#[allow(clippy::too_many_arguments)]
fn refusals(
    random: &mut Random,
    state: &mut Layers,
    layer: &[f32],
    memory: &mut Memory,
    answers: &mut Answers,
    min: [u32; 3],
    max: [u32; 3],
    dims: [u32; 3],
) -> Result<(), String> {
    let plane = layer.len();
    if random.one_in(3) {
        let (answer, ..) = offer(state, &layer[1..], memory, &mut Lists::of(plane), answers)?;
        if answer != 3 {
            return Err(format!("a layer one short got {answer}"));
        }
    }
    if random.one_in(3) {
        let x = random.coordinate(min[0], max[0]);
        let y = random.coordinate(min[1], max[1]);
        let mut bad = layer.to_vec();
        bad[(x + dims[0] * y) as usize] =
            random.pick(&[f32::NAN, f32::INFINITY, f32::from_bits(0x7D80_0001)]);
        let (answer, ..) = offer(state, &bad, memory, &mut Lists::of(plane), answers)?;
        if answer != 5 {
            return Err(format!("a bad distance got {answer}"));
        }
    }
    if random.one_in(3) {
        let kept = *state;
        let (answer, v, i) = offer(
            state,
            layer,
            &mut memory.clone(),
            &mut Lists::of(0),
            answers,
        )?;
        if answer == 0 {
            // No vertex: it was taken into a copy of the memory, and the state goes back.
            *state = kept;
            return if (v, i) == (0, 0) {
                Ok(())
            } else {
                Err("no room was let through".into())
            };
        }
        if answer != 6 || v == 0 {
            return Err(format!("no room for vertices got {answer}"));
        }
        let mut lists = Lists::of(v as usize);
        lists.indices.truncate((i as usize).saturating_sub(1));
        if i > 0 {
            let (answer, w, j) = offer(state, layer, memory, &mut lists, answers)?;
            if (answer, w, j) != (7, v, i) {
                return Err(format!("no room for indices got {answer}"));
            }
        }
    }
    Ok(())
}
