//! Prints what the published Rust makes of the cells and the grids of 1.0 and -1.0 whose bits and indices stand in a computed table
//! (`crates/rules/proofs/Vectors.antt`), and of the calls to which `crates/applied` applies the theorems: each number there is one of these.
//! With FAST_SURFACE_NETS_SRC set, in `oracle/`:
//!
//!     cargo run --release --offline --package oracle --example table_vectors
//!
//! A face's squared distances are those of its four positions, which the Rust gives, by document 01's formula.

use oracle::call::{Call, MaxPlane};
use oracle::published::Mesh;

fn run(dims: u32, grid: &[f32], max_plane: MaxPlane) -> Mesh {
    let mut mesh = Mesh {
        stride_to_index: vec![77; grid.len()],
        ..Mesh::default()
    };
    mesh.run(&Call {
        grid,
        dims: [dims; 3],
        min: [0; 3],
        max: [dims - 1; 3],
        max_plane,
    });
    mesh
}

fn bits(floats: &[f32; 3]) -> String {
    floats.map(|x| format!("{:08x}", x.to_bits())).join(" ")
}

const CUBE_EDGES: [(usize, usize); 12] = [
    (0, 1),
    (0, 2),
    (0, 4),
    (1, 3),
    (1, 5),
    (2, 3),
    (2, 6),
    (3, 7),
    (4, 5),
    (4, 6),
    (5, 7),
    (6, 7),
];

/// The centroid of a cell by document 01's formulas, its edges taken in this order.
fn centroid(d: &[f32; 8], edges: &[(usize, usize)]) -> [u32; 3] {
    let corner = |i: usize| [i % 2, i / 2 % 2, i / 4].map(|n| n as f32);
    let (mut sum, mut count) = ([0.0f32; 3], 0.0f32);
    for &(a, b) in edges {
        if (d[a] < 0.0) != (d[b] < 0.0) {
            let f = d[a] / (d[a] - d[b]);
            let g = 1.0 - f;
            for axis in 0..3 {
                sum[axis] += g * corner(a)[axis] + f * corner(b)[axis];
            }
            count += 1.0;
        }
    }
    sum.map(|x| (x / count).to_bits())
}

/// Which of the 66 exchanges of two edges change the centroid of a cell.
fn exchanges_seen(d: &[f32; 8]) -> u128 {
    let mut seen = 0;
    let mut bit = 1;
    for i in 0..12 {
        for j in i + 1..12 {
            let mut edges = CUBE_EDGES;
            edges.swap(i, j);
            if centroid(d, &edges) != centroid(d, &CUBE_EDGES) {
                seen |= bit;
            }
            bit <<= 1;
        }
    }
    seen
}

/// Which of them change that of any of 400,000 cells with corners from -3 to 3.
fn exchanges_seen_at_all() -> u128 {
    let mut state = 0x9E37_79B9_7F4A_7C15u64;
    let mut seen = 0;
    for _ in 0..400_000 {
        let corners = [(); 8].map(|()| {
            state ^= state << 13;
            state ^= state >> 7;
            state ^= state << 17;
            ((state >> 33) % 7) as f32 - 3.0
        });
        seen |= exchanges_seen(&corners);
    }
    seen
}

/// Cells on which the order of the edges shows: their vertices, and how many of the exchanges of two edges that show on any cell show on one of these.
fn cells_of_edge_order(cells: &[[f32; 8]]) {
    let mut seen = 0;
    for corners in cells {
        cell(*corners);
        assert_eq!(
            run(2, corners, MaxPlane::NONE).positions[0].map(f32::to_bits),
            centroid(corners, &CUBE_EDGES)
        );
        seen |= exchanges_seen(corners);
    }
    let (here, at_all) = (seen.count_ones(), exchanges_seen_at_all().count_ones());
    println!(
        "exchanges of two edges, of 66: {here} show on these cells, {at_all} on any of 400,000"
    );
}

/// One cell: its vertex.
fn cell(corners: [f32; 8]) {
    let mesh = run(2, &corners, MaxPlane::NONE);
    let (position, normal) = (bits(&mesh.positions[0]), bits(&mesh.normals[0]));
    println!("cell {corners:?}: position {position}, normal {normal}");
}

/// One cell of dimensions 9, 5, 7, the box being that cell alone: its vertex, where no two coordinates are alike.
fn far_cell(lowest: [u32; 3], corners: [f32; 8]) {
    let dims = [9, 5, 7];
    let index = |p: [u32; 3]| (p[0] + dims[0] * p[1] + dims[0] * dims[1] * p[2]) as usize;
    let mut grid = vec![1.0; index([0, 0, dims[2]])];
    for (i, &distance) in (0..8).zip(&corners) {
        grid[index([lowest[0] + i % 2, lowest[1] + i / 2 % 2, lowest[2] + i / 4])] = distance;
    }
    let mut mesh = Mesh {
        stride_to_index: vec![77; grid.len()],
        ..Mesh::default()
    };
    mesh.run(&Call {
        grid: &grid,
        dims,
        min: lowest,
        max: lowest.map(|n| n + 1),
        max_plane: MaxPlane::NONE,
    });
    println!(
        "cell {corners:?} at {lowest:?} of {dims:?}: position {}, normal {}, stride {}",
        bits(&mesh.positions[0]),
        bits(&mesh.normals[0]),
        mesh.surface_strides[0]
    );
}

fn squared_distance(a: [f32; 3], b: [f32; 3]) -> f32 {
    let [dx, dy, dz] = [a[0] - b[0], a[1] - b[1], a[2] - b[2]];
    (dx * dx + dy * dy) + dz * dz
}

/// A face's v1 to v4, by the cells of its six corners: v1 is the highest, v4 the lowest, and v2 one step down along B, the axis after
/// that on which all four agree.
fn four(mesh: &Mesh, face: &[u32]) -> [u32; 4] {
    let at = |v: u32| mesh.surface_points[v as usize];
    let height = |v: &&u32| at(**v).iter().sum::<u32>();
    let (v1, v4) = (
        *face.iter().max_by_key(height).unwrap(),
        *face.iter().min_by_key(height).unwrap(),
    );
    let axis = (0..3).find(|&a| at(v1)[a] == at(v4)[a]).unwrap();
    let [b, c] = [(axis + 1) % 3, (axis + 2) % 3];
    let below = |axis: usize| {
        let mut cell = at(v1);
        cell[axis] -= 1;
        *face.iter().find(|&&v| at(v) == cell).unwrap()
    };
    [v1, below(b), below(c), v4]
}

/// A grid of dimensions 3, 3, 3: the index list and, face by face, the squared distances v1-v4 and v2-v3.
fn grid(name: &str, grid: &[f32], max_plane: MaxPlane) {
    let mesh = run(3, grid, max_plane);
    println!(
        "{name}: V {}, I {}",
        mesh.positions.len(),
        mesh.indices.len()
    );
    println!("    indices {:?}", mesh.indices);
    print!("    squared distances");
    for face in mesh.indices.chunks(6) {
        let at = four(&mesh, face).map(|v| mesh.positions[v as usize]);
        let both = [
            squared_distance(at[0], at[3]),
            squared_distance(at[1], at[2]),
        ];
        print!(" {:08x} {:08x},", both[0].to_bits(), both[1].to_bits());
    }
    println!();
}

/// A box of the grid of dimensions 4, 4, 4 that is 1.0 but for -1.0 at (1,1,1): all six lists. The map held 77 before.
fn one_point(name: &str, min: [u32; 3], max: [u32; 3]) {
    let mut grid = vec![1.0; 64];
    grid[21] = -1.0;
    let mut mesh = Mesh {
        stride_to_index: vec![77; 64],
        ..Mesh::default()
    };
    mesh.run(&Call {
        grid: &grid,
        dims: [4; 3],
        min,
        max,
        max_plane: MaxPlane::NONE,
    });
    println!(
        "{name}: V {}, I {}",
        mesh.positions.len(),
        mesh.indices.len()
    );
    for (list, floats) in [("positions", &mesh.positions), ("normals", &mesh.normals)] {
        let vectors: Vec<String> = floats.iter().map(bits).collect();
        println!("    {list} {}", vectors.join(", "));
    }
    println!("    cells {:?}", mesh.surface_points);
    println!("    strides {:?}", mesh.surface_strides);
    println!("    map {:?}", mesh.stride_to_index);
    println!("    indices {:?}", mesh.indices);
}

fn signs(pattern: u32) -> Vec<f32> {
    let sign = |i: u32| if pattern >> i & 1 == 1 { -1.0 } else { 1.0 };
    (0..27).map(sign).collect()
}

fn main() {
    cell([-1.0, 0.0, 0.0, -1.0, 0.0, 0.0, 0.0, -1.0]);
    cell([0.0, -1.0, 0.0, 0.0, -2.0, 1.0, 0.0, 0.0]);
    cell([0.0, 0.0, 1.0, 0.0, 0.0, 0.0, -1.0, 0.0]);
    cell([0.0, 0.0, 0.0, 2.0, -1.0, 0.0, 0.0, -1.0]);
    // on each axis another order of the two middle terms gives other bits
    cell([-2.0, -1.0, 3.0, 1.0, 3.0, 0.0, -3.0, 2.0]);
    far_cell([6, 2, 4], [-2.0, -1.0, 3.0, 1.0, 3.0, 0.0, -3.0, 2.0]);
    cells_of_edge_order(&[
        [1.0, -2.0, -2.0, 3.0, -1.0, 2.0, 2.0, -1.0],
        [1.0, -1.0, -3.0, 2.0, -2.0, 2.0, 2.0, -3.0],
        [3.0, 0.0, -3.0, -3.0, 1.0, 3.0, 1.0, -2.0],
    ]);
    let ball = signs(1 << 13);
    for max_plane in MaxPlane::every() {
        grid(
            &format!("Ball with flags {}", max_plane.word()),
            &ball,
            max_plane,
        );
    }
    for pattern in [0x0A09214, 0x0166401, 0x2015] {
        grid(
            &format!("signs {pattern:#09x} with max plane"),
            &signs(pattern),
            MaxPlane::ALL,
        );
    }
    one_point("One point, whole", [0; 3], [3; 3]);
    one_point("One point, lower piece", [0; 3], [2, 3, 3]);
    one_point("One point, upper piece", [1, 0, 0], [3; 3]);
    one_point("One point, flat box", [0; 3], [0, 3, 3]);
    one_point("One point, a box inside", [1; 3], [2; 3]);
    let outside = run(2, &[1.0; 8], MaxPlane::NONE);
    println!("a cell with no vertex: map {}", outside.stride_to_index[0]);
}
