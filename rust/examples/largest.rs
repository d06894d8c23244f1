//! Meshes the largest grid that condition 1 of document 01 lets through, 2^30 points, made and offered layer by layer, in
//! kept memory alone: `cargo run --release --example largest`. A ball fills most of the cube. It prints what came out, the
//! time, and the most memory that the program ever had.

use bed::{Kept, LayerLent, LayerRefusal, Layers, MaxPlane};
use std::time::Instant;

const SIDE: u32 = 1024;

fn main() {
    let plane = (SIDE * SIDE) as usize;
    let mut distances = vec![0.0; 2 * plane];
    let mut map = vec![0; 2 * plane];
    let mut positions = vec![0.0; 3 * plane];
    let mut kept = Kept {
        distances: &mut distances,
        map: &mut map,
        positions: &mut positions,
    };
    let max = [SIDE - 1; 3];
    let mut state = Layers::start([SIDE; 3], [0; 3], max, MaxPlane::NONE, &kept)
        .expect("the largest grid is let through");
    let mut room = Room::default();
    let mut layer = vec![0.0; plane];
    let (mut vertices, mut triangles) = (0, 0);
    let start = Instant::now();
    for z in 0..SIDE {
        ball_layer(z, &mut layer);
        let made = loop {
            match state.offer(&layer, &mut kept, &mut room.lent()) {
                Ok(made) => break made,
                Err(LayerRefusal::VerticesShort(need) | LayerRefusal::IndicesShort(need)) => {
                    room.grow(need.vertices as usize, need.indices as usize)
                }
                Err(refusal) => panic!("layer {z}: {refusal}"),
            }
        };
        vertices += made.vertices;
        triangles += made.indices / 3;
    }
    println!(
        "{} points, {vertices} vertices, {triangles} triangles, {:.1} s with the making of the layers, at most {} of memory",
        (SIDE as u64).pow(3),
        start.elapsed().as_secs_f64(),
        most_memory(),
    );
}

/// What a layer brings out: the lists grow where a refusal says so, and the layer is offered again.
#[derive(Default)]
struct Room {
    positions: Vec<f32>,
    normals: Vec<f32>,
    cells: Vec<u32>,
    strides: Vec<u32>,
    crossings: Vec<u8>,
    indices: Vec<u32>,
}

impl Room {
    fn grow(&mut self, vertices: usize, indices: usize) {
        self.positions.resize(3 * vertices, 0.0);
        self.normals.resize(3 * vertices, 0.0);
        self.cells.resize(3 * vertices, 0);
        self.strides.resize(vertices, 0);
        self.crossings.resize(vertices, 0);
        self.indices.resize(indices.max(self.indices.len()), 0);
    }

    fn lent(&mut self) -> LayerLent<'_> {
        LayerLent {
            positions: &mut self.positions,
            normals: &mut self.normals,
            cells: &mut self.cells,
            strides: &mut self.strides,
            crossings: &mut self.crossings,
            indices: &mut self.indices,
        }
    }
}

fn ball_layer(z: u32, layer: &mut [f32]) {
    let middle = (SIDE - 1) as f32 / 2.0;
    let radius = SIDE as f32 * 0.4;
    let square = |coordinate: u32| (coordinate as f32 - middle) * (coordinate as f32 - middle);
    for (y, row) in layer.chunks_mut(SIDE as usize).enumerate() {
        let plane = square(y as u32) + square(z);
        for (x, distance) in row.iter_mut().enumerate() {
            *distance = (square(x as u32) + plane).sqrt() - radius;
        }
    }
}

/// As Linux tells it.
fn most_memory() -> String {
    let status = std::fs::read_to_string("/proc/self/status").unwrap_or_default();
    status
        .lines()
        .find_map(|line| line.strip_prefix("VmHWM:"))
        .map_or("an unknown amount".to_string(), |most| {
            most.trim().to_string()
        })
}
