//! A bed taken layer by layer: Ball's output, the refusals in their order, and the state as C lays it out.

use bed::{Kept, LayerLent, LayerRefusal, Layers, MaxPlane};

/// Kept memory and the lists of one layer, of these lengths.
struct Memory {
    distances: Vec<f32>,
    map: Vec<u32>,
    positions: Vec<f32>,
}

impl Memory {
    fn of(distances: usize, map: usize, positions: usize) -> Self {
        Memory {
            distances: vec![0.0; distances],
            map: vec![7; map],
            positions: vec![0.0; positions],
        }
    }

    fn kept(&mut self) -> Kept<'_> {
        Kept {
            distances: &mut self.distances,
            map: &mut self.map,
            positions: &mut self.positions,
        }
    }
}

fn start(memory: &mut Memory) -> Result<Layers, LayerRefusal> {
    Layers::start([3; 3], [0; 3], [2; 3], MaxPlane::NONE, &memory.kept())
}

/// Offers a layer with room for `v` vertices and `i` indices: V, and the strides and indices that came out.
fn offer(
    layers: &mut Layers,
    layer: &[f32],
    memory: &mut Memory,
    v: usize,
    i: usize,
) -> Result<(Vec<u32>, Vec<u32>), LayerRefusal> {
    let mut floats = (vec![0.0; 3 * v], vec![0.0; 3 * v]);
    let mut words = (vec![0; 3 * v], vec![0; v], vec![0; i]);
    let mut crossings = vec![0; v];
    let counts = layers.offer(
        layer,
        &mut memory.kept(),
        &mut LayerLent {
            positions: &mut floats.0,
            normals: &mut floats.1,
            cells: &mut words.0,
            strides: &mut words.1,
            crossings: &mut crossings,
            indices: &mut words.2,
        },
    )?;
    words.1.truncate(counts.vertices as usize);
    words.2.truncate(counts.indices as usize);
    Ok((words.1, words.2))
}

#[test]
fn a_state_is_fifteen_numbers() {
    assert_eq!(std::mem::size_of::<Layers>(), 60);
    assert_eq!(std::mem::align_of::<Layers>(), 4);
}

#[test]
fn ball_comes_out_in_two_layers() {
    let flat = [1.0; 9];
    let mut middle = flat;
    middle[4] = -1.0;
    let mut memory = Memory::of(18, 18, 27);
    let mut layers = start(&mut memory).unwrap();
    assert_eq!(
        offer(&mut layers, &flat, &mut memory, 0, 0),
        Ok((vec![], vec![]))
    );
    let before = layers;
    let short = offer(&mut layers, &middle, &mut memory, 3, 6);
    assert_eq!(short.map_err(LayerRefusal::number), Err(6));
    let short = offer(&mut layers, &middle, &mut memory, 4, 5);
    assert_eq!(short.map_err(LayerRefusal::number), Err(7));
    assert_eq!(layers, before);
    let second = offer(&mut layers, &middle, &mut memory, 4, 6);
    assert_eq!(second, Ok((vec![0, 1, 3, 4], vec![2, 1, 0, 2, 3, 1])));
    let third = offer(&mut layers, &flat, &mut memory, 4, 12);
    let indices = vec![1, 4, 0, 1, 5, 4, 4, 2, 0, 4, 6, 2];
    assert_eq!(third, Ok((vec![9, 10, 12, 13], indices)));
    assert_eq!(
        offer(&mut layers, &flat, &mut memory, 4, 12),
        Err(LayerRefusal::Finished)
    );
}

#[test]
fn refusals_come_in_their_order() {
    let mut memory = Memory::of(17, 18, 27);
    assert_eq!(start(&mut memory), Err(LayerRefusal::MemoryShort));
    let mut layers = start(&mut Memory::of(18, 18, 27)).unwrap();
    let mut bad = [1.0; 9];
    bad[0] = f32::NAN;
    assert_eq!(
        offer(&mut layers, &bad[1..], &mut memory, 0, 0),
        Err(LayerRefusal::LayerLength)
    );
    assert_eq!(
        offer(&mut layers, &bad, &mut memory, 0, 0),
        Err(LayerRefusal::MemoryShort)
    );
    let mut memory = Memory::of(18, 18, 27);
    assert_eq!(
        offer(&mut layers, &bad, &mut memory, 0, 0),
        Err(LayerRefusal::Distance)
    );
    layers.taken = 3;
    assert_eq!(
        offer(&mut layers, &bad[1..], &mut memory, 0, 0),
        Err(LayerRefusal::Finished)
    );
    layers.max = [3; 3];
    assert_eq!(
        offer(&mut layers, &bad, &mut memory, 0, 0),
        Err(LayerRefusal::Box)
    );
    layers.dims = [0; 3];
    assert_eq!(
        offer(&mut layers, &bad, &mut memory, 0, 0),
        Err(LayerRefusal::Dimensions)
    );
}
