//! Stored calls around each refusal: one step on its two sides, and two conditions at once.

use super::{next_up, signs, Case};
use crate::model::DISTANCE_LIMIT;

pub fn dimensions() -> Vec<Case> {
    let group = "condition 1";
    let refused = [
        [3, 0, 3],
        [3, 3, 0],
        [0, 0, 0],
        [1, 16_777_218, 1],
        [1, 1, 16_777_218],
        [u32::MAX, 1, 1],
        [1024, 1024, 1025],
        [16_777_217, 64, 1],
        [65_536, 65_536, 1],
        [16_777_216, 257, 1],
        [16_777_216, 16_777_216, 65_536],
        [13_474_304, 15_613_952, 87_680],
    ];
    let accepted = [
        [1, 16_777_217, 1],
        [1, 1, 16_777_217],
        [16_777_216, 64, 1],
        [1024, 1024, 1024],
    ];
    let at_the_origin = |dims| Case::new(group, dims, vec![-1.0; 3]).with_box([0; 3], [0; 3]);
    let long_in_z = |z| {
        let grid = signs(0x0000_5A3C_96F1_0E27, 192);
        Case::new(group, [8, 8, z], grid).with_box([5, 5, 0], [7, 7, 2])
    };
    let mut cases: Vec<Case> = refused.map(at_the_origin).into();
    cases.extend(accepted.map(at_the_origin));
    cases.extend([long_in_z(16_777_216), long_in_z(16_777_217)]);
    cases
}

pub fn boxes() -> Vec<Case> {
    let group = "condition 2";
    let ball = || Case::ball(group);
    vec![
        ball().with_box([0, 2, 0], [2, 1, 2]),
        ball().with_box([0, 0, 2], [2, 2, 1]),
        // by index min is below max here, so that the Rust makes nothing of it
        ball().with_box([2, 0, 0], [1, 1, 1]),
        ball().with_box([0; 3], [2, 3, 2]),
        ball().with_box([0; 3], [2, 2, 3]),
        ball().with_box([0; 3], [u32::MAX; 3]),
        ball().with_box([3; 3], [3; 3]),
        // the index of max lies in the grid although max lies outside its dimensions
        Case::new(group, [1, 1, 4], vec![-1.0, 1.0, 1.0, 1.0]).with_box([0; 3], [1; 3]),
        // 3·1431655766 is 2 more than 2^32
        ball().with_box([0; 3], [1, 1_431_655_766, 1]),
    ]
}

pub fn lengths() -> Vec<Case> {
    let (short_grid, short_map) = ("condition 3", "condition 4");
    let grid = || Case::ball(short_grid);
    let map = || Case::ball(short_map);
    vec![
        grid().with_grid_length(0),
        grid().with_grid_length(0).with_box([0; 3], [0; 3]),
        grid().with_grid_length(1).with_box([0; 3], [0; 3]),
        grid().with_grid_length(13).with_box([0; 3], [1; 3]),
        grid().with_grid_length(14).with_box([0; 3], [1; 3]),
        grid().with_grid_length(26).with_box([0; 3], [1; 3]),
        grid().with_grid_length(28).with_box([0; 3], [1; 3]),
        grid().with_grid_length(54),
        map().with_map(0),
        map().with_map(27),
        map().with_map(60),
        // a grid of another length is refused before its map is looked at
        map().with_grid_length(30).with_map(29),
        map().with_grid_length(30).with_map(30),
        map()
            .with_grid_length(20)
            .with_box([0; 3], [1; 3])
            .with_map(19),
        map()
            .with_grid_length(20)
            .with_box([0; 3], [1; 3])
            .with_map(20),
    ]
}

pub fn distances() -> Vec<Case> {
    let group = "condition 5";
    let ball = || Case::ball(group);
    let up = next_up(DISTANCE_LIMIT);
    vec![
        ball().with_distance(0, f32::INFINITY),
        ball().with_distance(13, f32::NEG_INFINITY),
        ball().with_distance(2, f32::NAN),
        ball().with_distance(24, -up),
        ball().with_distance(13, -DISTANCE_LIMIT),
        ball().with_distance(8, f32::MAX),
        // document 01's old cap and the float above it are let in
        ball().with_distance(26, f32::from_bits((100 + 127) << 23)),
        ball().with_distance(26, -next_up(f32::from_bits((100 + 127) << 23))),
        // one past the box's max side is no point of it; on its max side is
        ball()
            .with_distance(2, f32::NAN)
            .with_box([0; 3], [1, 2, 2]),
        ball()
            .with_distance(1, f32::NAN)
            .with_box([0; 3], [1, 2, 2]),
        ball()
            .with_distance(0, f32::INFINITY)
            .with_box([1; 3], [2; 3]),
        // a flat box is looked at too
        ball()
            .with_distance(6, f32::NAN)
            .with_box([0; 3], [0, 2, 2]),
    ]
}

pub fn room() -> Vec<Case> {
    let group = "conditions 6 and 7";
    let ball = || Case::ball(group).with_exact_room();
    let walled = || Case::ball(group).with_max_plane().with_exact_room();
    let nothing = || Case::new(group, [3; 3], vec![1.0; 27]).with_exact_room();
    vec![
        ball().with_room(|room| room.positions = 0),
        ball().with_room(|room| room.normals = 23),
        ball().with_room(|room| room.normals = 0),
        ball().with_room(|room| room.cells = 23),
        ball().with_room(|room| room.strides = 7),
        ball().with_room(|room| room.indices = 0),
        walled().with_room(|room| room.indices = 35),
        walled().with_room(|room| room.strides = 0),
        walled(),
        // one length in threes does not make up for another
        ball().with_room(|room| (room.positions, room.normals) = (60, 21)),
        nothing(),
        nothing().with_room(|room| room.map = 40),
    ]
}

pub fn order_of_answers() -> Vec<Case> {
    let group = "two conditions at once";
    let ball = || Case::ball(group);
    let poisoned = || ball().with_distance(26, f32::NAN);
    vec![
        ball().with_box([2, 0, 0], [1, 2, 2]).with_dims([0, 3, 3]),
        ball()
            .with_box([0; 3], [2; 3])
            .with_dims([2, 3, 3])
            .with_grid_length(5),
        ball().with_dims([3, 3, 0]).with_map(2),
        ball().with_grid_length(20).with_box([2, 0, 0], [1, 2, 2]),
        ball().with_grid_length(20).with_map(10),
        poisoned().with_grid_length(26),
        poisoned().with_map(26),
        poisoned().with_box([0; 3], [2, 2, 3]),
        poisoned().with_room(|room| room.positions = 0),
        poisoned().with_room(|room| room.indices = 0),
        ball().with_map(26).with_room(|room| room.strides = 0),
        ball().with_room(|room| (room.strides, room.indices) = (7, 0)),
    ]
}
