//! Blocks of one grid, meshed on several cores.

use crate::explained;
use crate::failure::Failure;
use crate::grid::Grid;
use crate::progress::{self, Steps};
use bed::{Block, SurfaceNetsBuffer};
use std::sync::atomic::{AtomicBool, AtomicUsize, Ordering};
use std::sync::{mpsc, Mutex};
use std::thread;
use std::time::Instant;

/// How many workers there are at most: one for each core.
pub fn cores() -> usize {
    thread::available_parallelism().map_or(1, usize::from)
}

/// Meshes every block of a grid in memory and hands each mesh to `after`, with the block's place. `place` names a block in
/// words.
pub fn mesh_all<T: Send>(
    grid: &Grid,
    blocks: &[Block],
    workers: usize,
    place: impl Fn(usize) -> String + Sync,
    after: impl Fn(usize, &SurfaceNetsBuffer) -> Result<T, Failure> + Sync,
) -> Result<Vec<T>, Failure> {
    let steps = Steps {
        count: blocks.len() as u64,
        name: "blocks",
    };
    on_cores(
        blocks.len(),
        workers,
        steps,
        |number, buffer: &mut SurfaceNetsBuffer, report| {
            grid.distances
                .mesh(grid.header.dims, &blocks[number], buffer)
                .map_err(|refusal| {
                    let words = explained::of_a_block(refusal, grid, &blocks[number]);
                    Failure::refused(place(number), refusal.number(), words)
                })?;
            let result = after(number, buffer)?;
            report(buffer.positions.len());
            Ok(result)
        },
    )
}

/// Does jobs on so many cores, each worker with a memory of its own; what they give comes in the jobs' order. The first
/// failure in that order, of those that came about, ends it. A job reports its steps, with the new vertices of each.
pub fn on_cores<Memory: Default, T: Send>(
    jobs: usize,
    workers: usize,
    steps: Steps,
    one: impl Fn(usize, &mut Memory, &dyn Fn(usize)) -> Result<T, Failure> + Sync,
) -> Result<Vec<T>, Failure> {
    let next = AtomicUsize::new(0);
    let failed = AtomicBool::new(false);
    let results: Vec<_> = (0..jobs).map(|_| Mutex::new(None)).collect();
    let work = |reports: mpsc::Sender<u64>| {
        let mut memory = Memory::default();
        let report = |vertices: usize| {
            // Nobody listens once the display is done.
            let _ = reports.send(vertices as u64);
        };
        while !failed.load(Ordering::Relaxed) {
            let number = next.fetch_add(1, Ordering::Relaxed);
            let Some(slot) = results.get(number) else {
                break;
            };
            let result = one(number, &mut memory, &report);
            if result.is_err() {
                failed.store(true, Ordering::Relaxed);
            }
            *slot.lock().expect("no worker panics") = Some(result);
        }
    };
    let start = Instant::now();
    thread::scope(|scope| {
        let (sender, reports) = mpsc::channel();
        for _ in 0..workers.min(jobs) {
            let sender = sender.clone();
            scope.spawn(|| work(sender));
        }
        drop(sender);
        progress::show(reports, steps, start);
    });
    // After a failure the jobs that no worker came to have no result.
    let results = results
        .into_iter()
        .filter_map(|slot| slot.into_inner().expect("no worker panics"));
    results.collect()
}
