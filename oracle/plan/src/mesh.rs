//! After a yes: each block meshed by a call of its own, and the whole, by the same library. The faces of all blocks
//! together are the whole's, as multisets: six corners in order, each with its cell and its position's bits.

use crate::made::{self, Random};
use bed::{check_plan, surface_nets_lent, Block, Counts, Lent, MaxPlane, Refusal};
use std::collections::HashMap;

type Face = [([u32; 3], [u32; 3]); 6];

fn faces(sdf: &[f32], dims: [u32; 3], b: &Block, into: &mut HashMap<Face, i64>, by: i64) {
    let mut map = vec![0; sdf.len()];
    let room = |c: Counts| {
        (
            3 * c.vertices as usize,
            c.vertices as usize,
            c.indices as usize,
        )
    };
    let (mut p, mut v, mut i) = (0, 0, 0);
    for _ in 0..3 {
        let (mut positions, mut normals) = (vec![0.0; p], vec![0.0; p]);
        let (mut cells, mut strides, mut indices) = (vec![0; p], vec![0; v], vec![0; i]);
        let mut crossings = vec![0; v];
        let mut lent = Lent {
            positions: &mut positions,
            normals: &mut normals,
            cells: &mut cells,
            strides: &mut strides,
            crossings: &mut crossings,
            stride_to_index: &mut map,
            indices: &mut indices,
        };
        match surface_nets_lent(sdf, dims, b.min, b.max, b.max_plane, &mut lent) {
            Err(Refusal::VerticesShort(c)) | Err(Refusal::IndicesShort(c)) => (p, v, i) = room(c),
            Err(why) => panic!("{why:?}"),
            Ok(_) => {
                for six in indices.chunks_exact(6) {
                    let corner = |n: u32| {
                        let at = 3 * n as usize;
                        let three = |k| [k, k + 1, k + 2];
                        (
                            three(at).map(|k| cells[k]),
                            three(at).map(|k| positions[k].to_bits()),
                        )
                    };
                    let face: Face = std::array::from_fn(|k| corner(six[k]));
                    *into.entry(face).or_default() += by;
                }
                return;
            }
        }
    }
    unreachable!("the counts of a refusal are enough")
}

pub fn compared(r: &mut Random) {
    let pinwheel = [
        ([0, 3], [0, 2]),
        ([2, 4], [0, 3]),
        ([1, 4], [2, 4]),
        ([0, 2], [1, 4]),
        ([1, 3], [1, 3]),
    ]
    .map(|(x, y)| Block {
        min: [x[0], y[0], 0],
        max: [x[1], y[1], 3],
        max_plane: MaxPlane::NONE,
    });
    let (mut plans, mut seen, mut noes) = (0, 0, 0);
    for n in 0..4000 {
        let (list, whole) = if n % 4 == 0 {
            (
                pinwheel.to_vec(),
                Block {
                    min: [0; 3],
                    max: [4, 4, 3],
                    max_plane: MaxPlane::NONE,
                },
            )
        } else {
            let whole = made::block(r, 8);
            let times = r.below(10);
            let mut list = made::cuts(r, &whole, times);
            if n % 4 == 3 {
                made::mistyped(r, &mut list);
            }
            (list, whole)
        };
        let dims = [11, 11, 11];
        let sdf: Vec<f32> = (0..1331).map(|_| r.below(7) as f32 - 3.0).collect();
        let mut left = HashMap::new();
        for b in &list {
            faces(&sdf, dims, b, &mut left, 1);
        }
        let written: i64 = left.values().sum();
        faces(&sdf, dims, &whole, &mut left, -1);
        let same = left.values().all(|&often| often == 0);
        if check_plan(&list, &whole) == Ok(true) {
            plans += 1;
            seen += written;
            if !same {
                println!("faces differ after a yes: {list:?} in {whole:?}");
                std::process::exit(1)
            }
        } else if !same {
            noes += 1;
        }
    }
    println!("meshed after a yes: plans {plans}, faces {seen}, unlike the whole's none; after a no: unlike {noes}");
}
