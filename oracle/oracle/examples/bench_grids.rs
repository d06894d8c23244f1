//! Prints what the published Rust makes of document 01's bench grids, line for line as
//! `crates/bench_grids/stdout` has it below its head. With FAST_SURFACE_NETS_SRC set, in `oracle/`:
//!
//!     cargo run --release --offline --package oracle --example bench_grids

use oracle::call::{Call, MaxPlane, Room};
use oracle::expected::{outcome, Contents};
use oracle::model::{Verdict, DISTANCE_LIMIT};
use oracle::published::Mesh;
use oracle::stored::old_contents;

/// What is printed besides the answer and the counts.
enum Show {
    Counts,
    Mesh,
    Indices,
    Vertex,
}

#[derive(Clone)]
struct Bench {
    grid: Vec<f32>,
    dims: [u32; 3],
    min: [u32; 3],
    max: [u32; 3],
    max_plane: MaxPlane,
    room: Room,
}

impl Bench {
    fn new(dims: u32, grid: Vec<f32>) -> Self {
        Self {
            grid,
            dims: [dims; 3],
            min: [0; 3],
            max: [dims - 1; 3],
            max_plane: MaxPlane::NONE,
            room: Room {
                positions: 27,
                normals: 27,
                cells: 27,
                strides: 11,
                crossings: 11,
                map: 30,
                indices: 39,
            },
        }
    }

    fn with(&self, change: impl Fn(&mut Self)) -> Self {
        let mut bench = self.clone();
        change(&mut bench);
        bench
    }

    fn print(&self, name: &str, show: Show) {
        let mut lent = old_contents(&self.room);
        let call = Call {
            grid: &self.grid,
            dims: self.dims,
            min: self.min,
            max: self.max,
            max_plane: self.max_plane,
        };
        let verdict = outcome(&call, &mut lent, &mut Mesh::default());
        let Verdict {
            answer,
            vertices,
            indices,
        } = verdict;
        let kept = if answer == 0 { "rest" } else { "all" };
        println!("{name:36}answer {answer}, V {vertices}, I {indices}, {kept} kept");
        print_more(&lent, &verdict, show);
    }
}

fn print_more(lent: &Contents, verdict: &Verdict, show: Show) {
    let indices = || words("indices", &lent.indices, verdict.indices);
    match show {
        Show::Counts => {}
        Show::Mesh => {
            words("strides", &lent.strides, verdict.vertices);
            words("crossings", &lent.crossings, verdict.vertices);
            indices();
            bits("vertex 0", &lent.positions[..3]);
            bits("vertex 1", &lent.positions[3..6]);
        }
        Show::Indices => indices(),
        Show::Vertex => {
            bits("position", &lent.positions[..3]);
            bits("normal", &lent.normals[..3]);
        }
    }
}

fn words(label: &str, list: &[u32], count: u64) {
    let words: String = list[..count as usize]
        .iter()
        .map(|n| format!(" {n}"))
        .collect();
    println!("    {label}{words}");
}

fn bits(label: &str, list: &[u32]) {
    let bits: String = list.iter().map(|n| format!(" {n:08x}")).collect();
    println!("    {label}{bits}");
}

fn ball_with(place: usize, distance: f32) -> Vec<f32> {
    let mut grid = vec![1.0; 27];
    grid[13] = -1.0;
    grid[place] = distance;
    grid
}

fn signs(pattern: u32) -> Vec<f32> {
    let sign = |i: u32| if pattern >> i & 1 == 1 { -1.0 } else { 1.0 };
    (0..27).map(sign).collect()
}

fn main() {
    let ball = Bench::new(3, ball_with(13, -1.0));
    let grid = |grid: Vec<f32>| ball.with(|b| b.grid = grid.clone());
    let to = |max: [u32; 3]| ball.with(|b| b.max = max);
    let plane = |b: &Bench| b.with(|b| b.max_plane = MaxPlane::ALL);
    ball.print("Ball", Show::Mesh);
    plane(&ball).print("Ball with max plane", Show::Counts);
    grid(ball_with(13, 1.0)).print("All 1.0", Show::Counts);
    grid(ball_with(13, -0.0)).print("Ball with -0.0 at the middle", Show::Counts);
    to([0, 2, 2]).print("Ball, flat box to (0,2,2)", Show::Counts);
    plane(&grid(signs(0x2015))).print("Signs 0x2015 with max plane", Show::Indices);

    let row = |x: u32| ball.with(|b| (b.grid, b.dims, b.max) = (vec![1.0], [x, 1, 1], [0; 3]));
    let none = ball.with(|b| b.dims = [0, 3, 3]);
    none.print("Dimension 0", Show::Counts);
    row(16_777_217).print("Dimensions 16,777,217, 1, 1", Show::Counts);
    row(16_777_218).print("Dimensions 16,777,218, 1, 1", Show::Counts);

    let crossed = ball.with(|b| (b.min, b.max) = ([2, 0, 0], [1, 2, 2]));
    crossed.print("min (2,0,0), max (1,2,2)", Show::Counts);
    to([3, 2, 2]).print("max (3,2,2)", Show::Counts);

    let short = ball.with(|b| b.grid.truncate(26));
    short.print("Grid of 26, box to (2,2,2)", Show::Counts);
    let inner = short.with(|b| b.max = [1; 3]);
    inner.print("Grid of 26, box to (1,1,1)", Show::Counts);
    let map = ball.with(|b| b.room.map = 26);
    map.print("Map one short of the grid", Show::Counts);

    let nan = grid(ball_with(26, f32::NAN));
    nan.print("Ball with not-a-number at (2,2,2)", Show::Counts);
    let inner = nan.with(|b| b.max = [1; 3]);
    inner.print("The same, box to (1,1,1)", Show::Counts);
    let above = f32::from_bits(DISTANCE_LIMIT.to_bits() + 1);
    grid(ball_with(0, DISTANCE_LIMIT)).print("Ball with 2^124 at (0,0,0)", Show::Counts);
    grid(ball_with(0, above)).print("Ball with the next float up", Show::Counts);

    let positions = ball.with(|b| b.room.positions = 23);
    positions.print("Ball, positions 23", Show::Counts);
    let both = positions.with(|b| b.room.indices = 17);
    both.print("Ball, positions 23, indices 17", Show::Counts);
    let indices = ball.with(|b| b.room.indices = 17);
    indices.print("Ball, indices 17", Show::Counts);

    let along_x = |low: f32, high: f32| Bench::new(2, [low, high].repeat(4));
    along_x(1.0, -1.0).print("Fraction of (1, -1) along x", Show::Vertex);
    along_x(0.0, -1.0).print("Fraction of (0, -1) along x", Show::Vertex);
    along_x(-1.0, 0.0).print("Fraction of (-1, 0) along x", Show::Vertex);
    let cell = vec![-1.0, 0.0, 0.0, -1.0, 0.0, 0.0, 0.0, -1.0];
    Bench::new(2, cell).print("Cell -1 0 0 -1 0 0 0 -1", Show::Vertex);
}
