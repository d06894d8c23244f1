//! Times the proved library and the published Rust on the same grids, in turns, in one process, and prints
//! the figures as docs/BENCH.md holds them.
//!
//! `timing BUILD.so ..`: the builds of the original, in the order of `page::BUILDS`. Each is run with dimensions known
//! as the program runs and as the compiler knows them, so that there are twice as many originals, and the library is
//! held against each.

mod clock;
mod environment;
mod grids;
mod page;
mod runners;
mod widths;

use page::Row;
use runners::{ByLayers, Dims, Library, Original, PlainLoop, Runner};

/// Rounds, each of which runs everyone once.
const ROUNDS: usize = 31;

/// A time is taken over as many meshes as this many points need.
const POINTS_A_TIME: usize = 1_000_000;

/// The points of the bed along each axis.
const BED: Dims = [129, 129, 65];

/// The library, the plain loop, the library fed layer by layer, and each build of the original with both kinds of dimensions.
const RUNNERS: usize = 3 + page::ORIGINALS;

fn main() {
    let paths: Vec<String> = std::env::args().skip(1).collect();
    if paths.len() != page::BUILDS.len() {
        eprintln!("usage: timing BUILD.so .., as many as the page has builds");
        std::process::exit(2);
    }
    let originals: Vec<Original> = paths
        .iter()
        .map(|path| Original::load(path))
        .flat_map(|build| [build, build.with_constant_shape()])
        .collect();
    let mut rows = Vec::new();
    for side in [34, 66, 130, 258] {
        rows.push(measure("ball", [side; 3], &grids::ball(side), &originals));
    }
    for side in [34, 66] {
        rows.push(measure(
            "random signs",
            [side; 3],
            &grids::random_signs(side),
            &originals,
        ));
    }
    rows.push(measure("bed", BED, &grids::bed(BED), &originals));
    page::print(&rows, ROUNDS);
    page::print_widths(&widths::measure());
    environment::print();
}

/// Times everyone on one grid.
fn measure(grid_name: &'static str, dims: Dims, grid: &[f32], originals: &[Original]) -> Row {
    let mut library = Library::default();
    library.make_room(grid, dims);
    let plain_loop = PlainLoop::beside(&library);
    let by_layers = ByLayers::beside(&library, dims);
    let mut runners: Vec<Box<dyn Runner>> =
        vec![Box::new(library), Box::new(plain_loop), Box::new(by_layers)];
    runners.extend(originals.iter().map(|&original| Box::new(original) as _));
    let meshes = warm_up(&mut runners, grid, dims);
    assert_eq!(meshes, RUNNERS - 1, "all but the plain loop mesh");
    let times = take_turns(&mut runners, grid, dims);
    let [library, plain_loop, by_layers, originals @ ..] = &times[..] else {
        unreachable!("there are {RUNNERS} runners");
    };
    Row {
        grid_name,
        dims,
        points: grid.len(),
        library: median(library),
        plain_loop: median(plain_loop),
        by_layers: median(by_layers),
        by_layers_ratio: ratio(by_layers, library),
        originals: std::array::from_fn(|i| median(&originals[i])),
        ratios: std::array::from_fn(|i| ratio(library, &originals[i])),
    }
}

/// Runs everyone twice, so that buffers are grown and touched, makes sure that all made one mesh, and tells how many
/// made it.
fn warm_up(runners: &mut [Box<dyn Runner>], grid: &[f32], dims: Dims) -> usize {
    let mut meshes = Vec::new();
    for runner in runners.iter_mut() {
        runner.mesh(grid, dims);
        runner.mesh(grid, dims);
        meshes.extend(runner.indices());
    }
    assert!(
        meshes.iter().all(|mesh| *mesh == meshes[0]),
        "not all made the same mesh"
    );
    meshes.len()
}

/// The time of each in each round. They take turns, and each round begins with another.
fn take_turns(runners: &mut [Box<dyn Runner>], grid: &[f32], dims: Dims) -> Vec<Vec<f64>> {
    let meshes = (POINTS_A_TIME / grid.len()).max(1);
    let mut times = vec![Vec::new(); runners.len()];
    for round in 0..ROUNDS {
        for turn in 0..runners.len() {
            let who = (round + turn) % runners.len();
            let start = clock::thread_seconds();
            for _ in 0..meshes {
                runners[who].mesh(grid, dims);
            }
            times[who].push((clock::thread_seconds() - start) / meshes as f64);
        }
    }
    times
}

fn median(figures: &[f64]) -> f64 {
    let mut sorted = figures.to_vec();
    sorted.sort_by(f64::total_cmp);
    sorted[sorted.len() / 2]
}

/// How many times as long the one takes as the other: the median over the rounds, in each of which both ran. A machine
/// that is slower for a while is so for both.
fn ratio(one: &[f64], other: &[f64]) -> f64 {
    let rounds: Vec<f64> = one.iter().zip(other).map(|(a, b)| a / b).collect();
    median(&rounds)
}
