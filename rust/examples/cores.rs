//! Meshes a tank of 512 x 512 x 128 points by one call, or, given a number of threads, in the blocks of a plan on so many:
//! `cargo run --release --example cores -- 2`. The time is by the clock, the median of seven rounds, with buffers that are warm.

use bed::{check_plan, surface_nets, Block, MaxPlane, SurfaceNetsBuffer};
use std::env;
use std::sync::atomic::{AtomicUsize, Ordering};
use std::thread;
use std::time::Instant;

const DIMS: [u32; 3] = [512, 512, 128];
/// Pieces on each axis.
const PIECES: [u32; 3] = [4, 4, 2];
const ROUNDS: usize = 7;

fn main() {
    let sdf = tank();
    let whole = Block {
        min: [0; 3],
        max: DIMS.map(|size| size - 1),
        max_plane: MaxPlane::NONE,
    };
    let blocks = plan();
    assert_eq!(check_plan(&blocks, &whole), Ok(true), "a plan of the tank");
    let (blocks, threads, name) = match env::args().nth(1).as_deref() {
        None => (vec![whole], 1, "one call".to_string()),
        Some(threads) => {
            let threads = threads.parse().expect("how many threads");
            let name = format!("{} blocks", blocks.len());
            (blocks, threads, name)
        }
    };
    let (milliseconds, triangles) = timed(&sdf, &blocks, threads);
    println!("{name}|{threads}|{triangles}|{milliseconds:.1}");
}

/// Milliseconds of a round, and its triangles.
fn timed(sdf: &[f32], blocks: &[Block], threads: usize) -> (f64, usize) {
    let mut buffers: Vec<_> = (0..threads).map(|_| SurfaceNetsBuffer::default()).collect();
    let mut triangles = round(sdf, blocks, &mut buffers);
    let mut times: Vec<f64> = (0..ROUNDS)
        .map(|_| {
            let start = Instant::now();
            triangles = round(sdf, blocks, &mut buffers);
            start.elapsed().as_secs_f64() * 1000.0
        })
        .collect();
    times.sort_by(f64::total_cmp);
    (times[ROUNDS / 2], triangles)
}

/// Meshes every block once, each thread taking the next that none has taken.
fn round(sdf: &[f32], blocks: &[Block], buffers: &mut [SurfaceNetsBuffer]) -> usize {
    let (next, triangles) = (AtomicUsize::new(0), AtomicUsize::new(0));
    let work = |buffer: &mut SurfaceNetsBuffer| {
        while let Some(block) = blocks.get(next.fetch_add(1, Ordering::Relaxed)) {
            surface_nets(sdf, DIMS, block.min, block.max, block.max_plane, buffer)
                .expect("the tank is accepted");
            triangles.fetch_add(buffer.indices.len() / 3, Ordering::Relaxed);
        }
    };
    thread::scope(|scope| {
        for buffer in buffers {
            scope.spawn(|| work(buffer));
        }
    });
    triangles.into_inner()
}

/// Sludge that slopes and has heaps, in a border above zero, as that of scripts/make-tank.
fn tank() -> Vec<f32> {
    let [x_size, y_size, z_size] = DIMS;
    let mut sdf = Vec::new();
    for z in 0..z_size {
        for y in 0..y_size {
            for x in 0..x_size {
                let places = [(x, x_size), (y, y_size), (z, z_size)];
                let inside = places
                    .iter()
                    .all(|(place, size)| (1..=size - 3).contains(place));
                let height = 30.0
                    + 0.06 * x as f32
                    + 12.0 * ((x as f32 * 0.05).sin() * (y as f32 * 0.07).cos());
                sdf.push(if inside { z as f32 - height } else { 8.0 });
            }
        }
    }
    sdf
}

/// The pieces of an axis, two neighbours sharing one layer of cells.
fn cuts(size: u32, count: u32) -> Vec<(u32, u32)> {
    let mark = |piece: u32| size * piece / count;
    (0..count)
        .map(|piece| {
            let low = if piece == 0 { 0 } else { mark(piece) };
            let last = piece + 1 == count;
            (low, if last { size - 1 } else { mark(piece + 1) + 1 })
        })
        .collect()
}

fn plan() -> Vec<Block> {
    let mut blocks = Vec::new();
    for (z0, z1) in cuts(DIMS[2], PIECES[2]) {
        for (y0, y1) in cuts(DIMS[1], PIECES[1]) {
            for (x0, x1) in cuts(DIMS[0], PIECES[0]) {
                blocks.push(Block {
                    min: [x0, y0, z0],
                    max: [x1, y1, z1],
                    max_plane: MaxPlane::NONE,
                });
            }
        }
    }
    blocks
}
