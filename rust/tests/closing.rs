//! A bed closed by a border: each number of the closed grid, the layers, every refusal, and what the mesher makes of it.

use bed::{
    close_layer, close_lent, deepest, is_enclosed, surface_nets, volume, wall_for, CloseRefusal,
    MaxPlane, SurfaceNetsBuffer,
};

const W: f32 = 8.0;

/// 2 by 1 by 3 points: in the closed grid, 5 by 4 by 6, these six stand at (1, 1, 1), (2, 1, 1), (1, 1, 2) and on.
const SDF: [f32; 6] = [1.0, -2.0, 3.0, -4.0, 5.0, -6.0];
const DIMS: [u32; 3] = [2, 1, 3];

fn expected() -> Vec<f32> {
    let mut closed = vec![W; 120];
    for (at, value) in [
        (26, 1.0),
        (27, -2.0),
        (46, 3.0),
        (47, -4.0),
        (66, 5.0),
        (67, -6.0),
    ] {
        closed[at] = value;
    }
    closed
}

#[test]
fn closed_at_every_place() {
    let mut closed = [0.5; 122];
    assert_eq!(close_lent(&SDF, DIMS, W, &mut closed), Ok(()));
    assert_eq!(closed[..120], expected()[..]);
    assert_eq!(closed[120..], [0.5, 0.5]);
    let sixteens: Vec<i16> = SDF.iter().map(|&d| d as i16).collect();
    let eights: Vec<i8> = SDF.iter().map(|&d| d as i8).collect();
    let mut closed = [0.5; 120];
    assert_eq!(close_lent(&sixteens, DIMS, W, &mut closed), Ok(()));
    assert_eq!(closed[..], expected()[..]);
    let mut closed = [0.5; 120];
    assert_eq!(close_lent(&eights, DIMS, W, &mut closed), Ok(()));
    assert_eq!(closed[..], expected()[..]);
}

#[test]
fn layers_are_the_grid() {
    let sixteens: Vec<i16> = SDF.iter().map(|&d| d as i16).collect();
    let eights: Vec<i8> = SDF.iter().map(|&d| d as i8).collect();
    let mut joined = [vec![], vec![], vec![]];
    for z in 0..6 {
        let part = match z {
            1..=3 => 2 * (z - 1)..2 * z,
            _ => 0..0,
        };
        let mut layer = [0.5; 20];
        let at = z as u32;
        close_layer(&SDF[part.clone()], DIMS, at, W, &mut layer).unwrap();
        joined[0].extend(layer);
        close_layer(&sixteens[part.clone()], DIMS, at, W, &mut layer).unwrap();
        joined[1].extend(layer);
        close_layer(&eights[part], DIMS, at, W, &mut layer).unwrap();
        joined[2].extend(layer);
    }
    for layers in joined {
        assert_eq!(layers, expected());
    }
}

#[test]
fn refusals_in_their_order() {
    let mut closed = [0.5; 120];
    let mut refused = |sdf: &[f32], dims, wall, room| {
        let said = close_lent(sdf, dims, wall, &mut closed[..room]).unwrap_err();
        assert!(closed.iter().all(|&x| x == 0.5));
        said.number()
    };
    assert_eq!(refused(&[], [2, 0, 3], f32::NAN, 0), 1);
    assert_eq!(refused(&SDF[1..], DIMS, f32::NAN, 0), 3);
    for wall in [f32::NAN, f32::INFINITY, -1.0, 0.0, -0.0, 3e37] {
        assert_eq!(refused(&SDF, DIMS, wall, 0), 72);
    }
    assert_eq!(refused(&SDF, DIMS, W, 119), 74);
    let long = vec![1.0; 16_777_217];
    assert_eq!(refused(&long, [16_777_217, 1, 1], W, 0), 73);
    let mut layer = |numbers: &[f32], z, wall, room| {
        close_layer(numbers, DIMS, z, wall, &mut closed[..room])
            .unwrap_err()
            .number()
    };
    assert_eq!(layer(&SDF, 6, f32::NAN, 0), 71);
    assert_eq!(layer(&SDF[..2], 0, f32::NAN, 0), 3);
    assert_eq!(layer(&[], 1, f32::NAN, 0), 3);
    assert_eq!(layer(&SDF[..2], 3, 0.0, 0), 72);
    assert_eq!(layer(&SDF[..2], 3, W, 19), 74);
    assert_eq!(CloseRefusal::Room.number(), 74);
}

#[test]
fn walls() {
    assert_eq!(deepest(0.0, &SDF), 6.0);
    assert_eq!(deepest(7.0, &SDF), 7.0);
    assert_eq!(deepest(deepest(0.0, &SDF[..2]), &SDF[2..]), 6.0);
    assert_eq!(deepest(0.0, &[f32::NAN, 1.0, -0.0]), 0.0);
    assert_eq!(deepest(0.0, &[-32768i16, 32767]), 32768.0);
    assert_eq!(deepest(0.0, &[-128i8, 127]), 128.0);
    assert_eq!(wall_for(0.0), 1.0);
    assert_eq!(wall_for(6.0), (1u64 << 28) as f32);
    assert_eq!(wall_for(f32::INFINITY), 2f32.powi(124));
    assert_eq!(wall_for(f32::from_bits(1)), 2f32.powi(-124));
}

/// A tank of 4 by 3 by 5 points, all below zero: its closed skin is a box, bit for bit on the outermost points.
#[test]
fn a_full_tank_is_its_box() {
    let sdf: Vec<f32> = (0..60).map(|i| -1.0 - i as f32 / 7.0).collect();
    let mut closed = vec![0.0; 7 * 6 * 8];
    let wall = wall_for(deepest(0.0, &sdf));
    close_lent(&sdf, [4, 3, 5], wall, &mut closed).unwrap();
    assert_eq!(is_enclosed(&closed, [7, 6, 8], [0; 3], [6, 5, 7]), Ok(true));
    let mut mesh = SurfaceNetsBuffer::default();
    surface_nets(
        &closed,
        [7, 6, 8],
        [0; 3],
        [6, 5, 7],
        MaxPlane::NONE,
        &mut mesh,
    )
    .unwrap();
    for (position, cell) in mesh.positions.iter().zip(&mesh.surface_points) {
        for axis in 0..3 {
            let last = [4, 3, 5][axis];
            if cell[axis] == 0 {
                assert_eq!(position[axis].to_bits(), 1f32.to_bits());
            }
            if cell[axis] == last {
                assert_eq!(position[axis].to_bits(), (last as f32).to_bits());
            }
        }
    }
    // 3 by 2 by 4 grid steps, six times, in cubed steps of 1/256
    let flat: Vec<f32> = mesh.positions.iter().flatten().copied().collect();
    assert_eq!(
        volume(&flat, &mesh.indices),
        Ok(6 * 3 * 2 * 4 * 256 * 256 * 256)
    );
}
