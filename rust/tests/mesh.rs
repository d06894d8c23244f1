//! The wrapper on meshes whose numbers document 01 gives, on the octant of the original's own
//! documentation, on refusals, and on a buffer that is used again.

use bed::{
    is_enclosed, surface_nets, surface_nets_lent, Counts, Lent, MaxPlane, Refusal,
    SurfaceNetsBuffer, NULL_VERTEX,
};
use std::collections::HashMap;

const ROOM_FOR_BALL: Counts = Counts {
    vertices: 8,
    indices: 18,
};

/// Document 01's Ball: 3, 3, 3, all 1.0 but -1.0 in the middle.
fn ball() -> [f32; 27] {
    let mut sdf = [1.0; 27];
    sdf[13] = -1.0;
    sdf
}

fn max_plane([x, y, z]: [bool; 3]) -> MaxPlane {
    MaxPlane { x, y, z }
}

/// All eight, x, y, z.
fn every_flags() -> impl Iterator<Item = [bool; 3]> {
    (0..8).map(|word| [1, 2, 4].map(|bit| word & bit != 0))
}

/// The mesh of a box in a grid of dimensions 3, 3, 3.
fn mesh_in(
    sdf: &[f32],
    min: [u32; 3],
    max: [u32; 3],
    max_plane: MaxPlane,
) -> Result<SurfaceNetsBuffer, Refusal> {
    let mut buffer = SurfaceNetsBuffer::default();
    surface_nets(sdf, [3; 3], min, max, max_plane, &mut buffer).map(|()| buffer)
}

/// The same without max plane, from the origin.
fn mesh_of(sdf: &[f32], max: [u32; 3]) -> Result<SurfaceNetsBuffer, Refusal> {
    mesh_in(sdf, [0; 3], max, MaxPlane::NONE)
}

#[test]
fn ball_is_document_01s() {
    let mesh = mesh_of(&ball(), [2; 3]).unwrap();
    assert_eq!(mesh.surface_strides, [0, 1, 3, 4, 9, 10, 12, 13]);
    assert_eq!(mesh.crossings, [3; 8]);
    assert_eq!(
        mesh.indices,
        [2, 1, 0, 2, 3, 1, 1, 4, 0, 1, 5, 4, 4, 2, 0, 4, 6, 2]
    );
    assert_eq!(mesh.positions[0].map(f32::to_bits), [0x3F555555; 3]);
    assert_eq!(mesh.positions[1][0].to_bits(), 0x3F955555);
    assert_eq!(mesh.surface_points[7], [1, 1, 1]);
    assert_eq!(mesh.normals.len(), 8);
    assert_eq!(mesh.stride_to_index[13], 7);
    assert_eq!(mesh.stride_to_index[26], NULL_VERTEX);
}

#[test]
fn max_plane_doubles_the_balls_faces() {
    let mesh = mesh_in(&ball(), [0; 3], [2; 3], MaxPlane::ALL).unwrap();
    assert_eq!((mesh.positions.len(), mesh.indices.len()), (8, 36));
}

/// The cells of each face's six corners.
fn faces(mesh: &SurfaceNetsBuffer) -> Vec<[[u32; 3]; 6]> {
    let cell = |index: u32| mesh.surface_points[index as usize];
    let of_face = |face: &[u32]| std::array::from_fn(|corner| cell(face[corner]));
    mesh.indices.chunks_exact(6).map(of_face).collect()
}

/// The faces of Ball's three edges that end at max: each flag brings its own and no other, the last cells
/// on its axis being those at 1.
#[test]
fn each_max_plane_brings_its_own_axis() {
    for flags in every_flags() {
        let mesh = mesh_in(&ball(), [0; 3], [2; 3], max_plane(flags)).unwrap();
        let faces = faces(&mesh);
        let at_max = |axis: usize| {
            let last = |face: &[[u32; 3]; 6]| face.iter().all(|cell| cell[axis] == 1);
            faces.iter().filter(|face| last(face)).count()
        };
        assert_eq!([0, 1, 2].map(at_max), flags.map(usize::from));
        assert_eq!(faces.len(), 3 + flags.iter().filter(|&&on| on).count());
    }
}

/// Ball cut on each axis at 0 and at 1: the lower piece with its flag off there and then, which doubles a
/// face if it is on, with its flag kept.
#[test]
fn a_cut_neither_loses_nor_doubles_a_face() {
    for flags in every_flags() {
        let sorted_faces = |boxes: &[([u32; 3], [u32; 3], [bool; 3])]| {
            let mesh = |&(min, max, flags)| mesh_in(&ball(), min, max, max_plane(flags)).unwrap();
            let mut all: Vec<_> = boxes.iter().flat_map(|piece| faces(&mesh(piece))).collect();
            all.sort();
            all
        };
        let whole = sorted_faces(&[([0; 3], [2; 3], flags)]);
        for (axis, k) in [(0, 0), (0, 1), (1, 0), (1, 1), (2, 0), (2, 1)] {
            let (mut top, mut bottom, mut off) = ([2; 3], [0; 3], flags);
            (top[axis], bottom[axis], off[axis]) = (k + 1, k, false);
            let pieces = |lower| sorted_faces(&[([0; 3], top, lower), (bottom, [2; 3], flags)]);
            assert_eq!(pieces(off), whole);
            assert_eq!(pieces(flags) != whole, flags[axis]);
        }
    }
}

/// A 16^3 chunk with a border of one, holding one octant of a sphere of radius 15.
fn sphere_octant() -> Vec<f32> {
    let mut sdf = Vec::new();
    for z in 0..18u32 {
        for y in 0..18u32 {
            for x in 0..18u32 {
                sdf.push(((x * x + y * y + z * z) as f32).sqrt() - 15.0);
            }
        }
    }
    sdf
}

#[test]
fn sphere_octant_lies_on_the_sphere() {
    let mut buffer = SurfaceNetsBuffer::default();
    surface_nets(
        &sphere_octant(),
        [18; 3],
        [0; 3],
        [17; 3],
        MaxPlane::NONE,
        &mut buffer,
    )
    .unwrap();
    assert!(!buffer.indices.is_empty());
    assert_eq!(buffer.indices.len() % 6, 0);
    let vertices = buffer.positions.len();
    assert!(buffer.indices.iter().all(|&i| (i as usize) < vertices));
    assert_eq!(buffer.normals.len(), vertices);
    assert_eq!(buffer.surface_points.len(), vertices);
    assert_eq!(buffer.surface_strides.len(), vertices);
    assert_eq!(buffer.crossings.len(), vertices);
    assert!(buffer
        .crossings
        .iter()
        .all(|n| (3..=9).contains(n) || *n == 12));
    for [x, y, z] in buffer.positions {
        let radius = (x * x + y * y + z * z).sqrt();
        assert!((radius - 15.0).abs() < 0.1, "a vertex at radius {radius}");
    }
}

#[test]
fn refusals_say_why() {
    let refused = |sdf: &[f32], dims, min, max| {
        let mut buffer = SurfaceNetsBuffer::default();
        surface_nets(sdf, dims, min, max, MaxPlane::NONE, &mut buffer).unwrap_err()
    };
    let not_a_number = {
        let mut sdf = ball();
        sdf[26] = f32::NAN;
        sdf
    };
    assert_eq!(
        refused(&ball(), [0, 3, 3], [0; 3], [2; 3]),
        Refusal::Dimensions
    );
    assert_eq!(refused(&ball(), [3; 3], [2, 0, 0], [1, 2, 2]), Refusal::Box);
    assert_eq!(refused(&ball(), [3; 3], [0; 3], [3, 2, 2]), Refusal::Box);
    assert_eq!(
        refused(&ball()[..26], [3; 3], [0; 3], [2; 3]),
        Refusal::GridLength
    );
    assert_eq!(
        refused(&not_a_number, [3; 3], [0; 3], [2; 3]),
        Refusal::Distance
    );
    let longer = [&ball()[..], &[1.0]].concat();
    assert_eq!(
        refused(&longer, [3; 3], [0; 3], [1; 3]),
        Refusal::GridLength
    );
    assert!(Refusal::GridLength.to_string().contains("grid's length"));
    let error: Box<dyn std::error::Error> = Box::new(Refusal::IndicesShort(ROOM_FOR_BALL));
    assert_eq!(error.to_string(), "no room for 18 indices");
}

#[test]
fn lent_slices_are_refused_or_keep_their_rest() {
    let mesh = |positions: usize, crossings: usize, map: usize, indices: usize| {
        let (mut places, mut normals) = (vec![7.0; positions], vec![7.0; 30]);
        let (mut cells, mut strides) = (vec![7; 30], vec![7; 10]);
        let (mut entries, mut faces) = (vec![7; map], vec![7; indices]);
        let mut numbers = vec![7; crossings];
        let mut lent = Lent {
            positions: &mut places,
            normals: &mut normals,
            cells: &mut cells,
            strides: &mut strides,
            crossings: &mut numbers,
            stride_to_index: &mut entries,
            indices: &mut faces,
        };
        let (dims, min, max) = ([3; 3], [0; 3], [2; 3]);
        let answer = surface_nets_lent(&ball(), dims, min, max, MaxPlane::NONE, &mut lent);
        (answer, places, strides, numbers, entries, faces)
    };
    assert_eq!(mesh(24, 8, 26, 18).0, Err(Refusal::MapShort));
    assert_eq!(
        mesh(23, 8, 27, 17).0,
        Err(Refusal::VerticesShort(ROOM_FOR_BALL))
    );
    assert_eq!(
        mesh(24, 7, 27, 17).0,
        Err(Refusal::VerticesShort(ROOM_FOR_BALL))
    );
    let (answer, places, strides, numbers, entries, faces) = mesh(24, 8, 27, 17);
    assert_eq!(answer, Err(Refusal::IndicesShort(ROOM_FOR_BALL)));
    assert!(places.iter().all(|&number| number == 7.0));
    assert!(numbers.iter().all(|&number| number == 7));
    assert!([strides, entries, faces]
        .concat()
        .iter()
        .all(|&number| number == 7));
    let (answer, places, strides, numbers, entries, faces) = mesh(30, 10, 28, 20);
    assert_eq!(answer, Ok(ROOM_FOR_BALL));
    assert_eq!(places[24..], [7.0; 6]);
    assert_eq!(strides[8..], [7; 2]);
    assert_eq!(numbers, [3, 3, 3, 3, 3, 3, 3, 3, 7, 7]);
    assert_eq!(
        (entries[2], entries[8], entries[27]),
        (NULL_VERTEX, NULL_VERTEX, 7)
    );
    assert_eq!(faces[18..], [7; 2]);
}

#[test]
fn a_reused_buffer_gives_the_same_mesh() {
    let mut buffer = SurfaceNetsBuffer::default();
    let mut mesh = |sdf: &[f32], dims, max| {
        surface_nets(sdf, dims, [0; 3], max, MaxPlane::NONE, &mut buffer).map(|()| buffer.clone())
    };
    let octant = mesh(&sphere_octant(), [18; 3], [17; 3]).unwrap();
    let small = mesh(&ball(), [3; 3], [2; 3]).unwrap();
    assert_eq!(small.stride_to_index.len(), 27);
    assert_eq!((small.positions.len(), small.indices.len()), (8, 18));
    assert_eq!(small.indices, mesh_of(&ball(), [2; 3]).unwrap().indices);
    let again = mesh(&sphere_octant(), [18; 3], [17; 3]).unwrap();
    assert_eq!(again.indices, octant.indices);
    assert_eq!(again.positions, octant.positions);
    assert_eq!(again.normals, octant.normals);
}

#[test]
fn entries_outside_the_box_are_kept_from_an_earlier_call() {
    let mut buffer = mesh_of(&ball(), [2; 3]).unwrap();
    let before = buffer.stride_to_index.clone();
    surface_nets(&ball(), [3; 3], [1; 3], [2; 3], MaxPlane::NONE, &mut buffer).unwrap();
    assert_eq!(buffer.positions.len(), 1);
    for (place, &entry) in buffer.stride_to_index.iter().enumerate() {
        let inside = [place % 3, place / 3 % 3, place / 9]
            .iter()
            .all(|&n| n >= 1);
        let wanted = match place {
            13 => 0,
            _ if inside => NULL_VERTEX,
            _ => before[place],
        };
        assert_eq!(entry, wanted, "at {place}");
    }
    assert_eq!(before[..2], [0, 1]);
}

/// Each point of the box that is no cell loses what an earlier call left there, in a flat box too.
#[test]
fn no_entry_of_an_earlier_call_is_left_inside_the_box() {
    let mut buffer = SurfaceNetsBuffer {
        stride_to_index: vec![7; 27],
        ..SurfaceNetsBuffer::default()
    };
    let mut mesh = |max| {
        surface_nets(&ball(), [3; 3], [0; 3], max, MaxPlane::NONE, &mut buffer).unwrap();
        buffer.stride_to_index.clone()
    };
    let entries = mesh([2, 2, 0]);
    assert!(entries[..9].iter().all(|&entry| entry == NULL_VERTEX));
    assert!(entries[9..].iter().all(|&entry| entry == 7));
    let entries = mesh([2; 3]);
    let cells = [0, 1, 3, 4, 9, 10, 12, 13];
    for (place, &entry) in entries.iter().enumerate() {
        let wanted = cells.iter().position(|&cell| cell == place);
        assert_eq!(entry, wanted.map_or(NULL_VERTEX, |number| number as u32));
    }
}

#[test]
fn a_refused_call_leaves_the_buffer_as_it_was() {
    let mut buffer = mesh_of(&ball(), [2; 3]).unwrap();
    let before = buffer.clone();
    let (sdf, max) = ([f32::NAN; 64], [3; 3]);
    let refused = surface_nets(&sdf, [4; 3], [0; 3], max, MaxPlane::NONE, &mut buffer);
    assert_eq!(refused, Err(Refusal::Distance));
    assert_eq!(buffer, before);
}

/// How often each directed side of the triangles occurs.
fn sides(indices: &[u32]) -> HashMap<(u32, u32), u32> {
    let mut sides = HashMap::new();
    for triangle in indices.chunks_exact(3) {
        for k in 0..3 {
            *sides
                .entry((triangle[k], triangle[(k + 1) % 3]))
                .or_default() += 1;
        }
    }
    sides
}

/// Two points inside that touch along no edge: four crossings meet on one square, and a side occurs
/// twice there.
#[test]
fn an_enclosed_mesh_has_no_hole() {
    let mut sdf = [1.0; 125];
    sdf[31] = -1.0;
    sdf[37] = -1.0;
    assert_eq!(is_enclosed(&sdf, [5; 3], [0; 3], [4; 3]), Ok(true));
    for flags in every_flags() {
        let mut mesh = SurfaceNetsBuffer::default();
        surface_nets(&sdf, [5; 3], [0; 3], [4; 3], max_plane(flags), &mut mesh).unwrap();
        let sides = sides(&mesh.indices);
        assert!(sides.values().any(|&often| often == 2));
        assert!(sides
            .iter()
            .all(|((a, b), often)| sides.get(&(*b, *a)) == Some(often)));
    }
}

#[test]
fn a_box_is_enclosed_if_its_margin_is_outside() {
    let mut sdf = [1.0; 64];
    assert_eq!(is_enclosed(&sdf, [4; 3], [0; 3], [3; 3]), Ok(true));
    sdf[21] = -1.0;
    assert_eq!(is_enclosed(&sdf, [4; 3], [0; 3], [3; 3]), Ok(true));
    assert_eq!(is_enclosed(&sdf, [4; 3], [0; 3], [2; 3]), Ok(false));
    assert_eq!(is_enclosed(&sdf, [4; 3], [1, 0, 0], [3; 3]), Ok(false));
    assert_eq!(is_enclosed(&sdf, [4; 3], [2, 0, 0], [3; 3]), Ok(true));
    sdf[42] = f32::NEG_INFINITY;
    assert_eq!(is_enclosed(&sdf, [4; 3], [0; 3], [3; 3]), Ok(false));
    sdf[42] = -f32::NAN;
    assert_eq!(is_enclosed(&sdf, [4; 3], [0; 3], [3; 3]), Ok(true));
    sdf[42] = -0.0;
    assert_eq!(is_enclosed(&sdf, [4; 3], [0; 3], [3; 3]), Ok(true));
}

#[test]
fn the_test_is_refused_as_the_call_is() {
    let refused = |sdf: &[f32], dims, min, max| is_enclosed(sdf, dims, min, max).unwrap_err();
    assert_eq!(
        refused(&ball(), [0, 3, 3], [0; 3], [2; 3]),
        Refusal::Dimensions
    );
    assert_eq!(refused(&ball(), [3; 3], [2, 0, 0], [1, 2, 2]), Refusal::Box);
    assert_eq!(refused(&ball(), [3; 3], [0; 3], [3, 2, 2]), Refusal::Box);
    assert_eq!(
        refused(&ball()[..26], [3; 3], [0; 3], [2; 3]),
        Refusal::GridLength
    );
    assert_eq!(is_enclosed(&ball(), [3; 3], [0; 3], [2; 3]), Ok(false));
}
