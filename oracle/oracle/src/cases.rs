//! The calls whose answers are stored: document 01's bench grids, each of its conditions and easy
//! slips, the smallest inputs on which other orders of the same arithmetic give other bits, and one and two
//! max planes.

mod meshes;
mod refusals;

use crate::call::{Call, MaxPlane, Room};
use crate::expected::room_needed;
use crate::model::DISTANCE_LIMIT;

/// A call to store, with the group that it belongs to.
#[derive(Clone)]
pub struct Case {
    pub group: &'static str,
    pub grid: Vec<f32>,
    pub dims: [u32; 3],
    pub min: [u32; 3],
    pub max: [u32; 3],
    pub max_plane: MaxPlane,
    pub room: Room,
}

/// All calls, group after group.
pub fn all() -> Vec<Case> {
    let groups = [
        bench_grids(),
        refusals::dimensions(),
        refusals::boxes(),
        refusals::lengths(),
        refusals::distances(),
        refusals::room(),
        refusals::order_of_answers(),
        meshes::rounding_slips(),
        meshes::crossings_of_one_cell(),
        meshes::signs_with_and_without_max_plane(),
        meshes::one_and_two_max_planes(),
        meshes::boxes_inside_a_spoiled_grid(),
        meshes::kinds_of_distances(),
        meshes::flat_boxes(),
    ];
    groups.into_iter().flatten().collect()
}

impl Case {
    pub fn view(&self) -> Call<'_> {
        Call {
            grid: &self.grid,
            dims: self.dims,
            min: self.min,
            max: self.max,
            max_plane: self.max_plane,
        }
    }

    /// The stored answer.
    pub fn ask(&self) -> crate::stored::StoredCall {
        crate::stored::StoredCall::ask(&self.view(), &self.room)
    }

    /// A call over the whole of a grid, with three elements to spare in each buffer.
    fn new(group: &'static str, dims: [u32; 3], grid: Vec<f32>) -> Self {
        Self {
            group,
            grid,
            dims,
            min: [0; 3],
            max: dims.map(|dim| dim.saturating_sub(1)),
            max_plane: MaxPlane::NONE,
            room: Room::default(),
        }
        .with_spare_room(3)
    }

    fn ball(group: &'static str) -> Self {
        Self::new(group, [3; 3], ball_with(-1.0))
    }

    fn with_box(mut self, min: [u32; 3], max: [u32; 3]) -> Self {
        (self.min, self.max) = (min, max);
        self.with_spare_room(3)
    }

    fn with_max_plane(self) -> Self {
        self.with_flags(MaxPlane::ALL)
    }

    fn with_flags(mut self, max_plane: MaxPlane) -> Self {
        self.max_plane = max_plane;
        self.with_spare_room(3)
    }

    fn with_dims(mut self, dims: [u32; 3]) -> Self {
        self.dims = dims;
        self
    }

    fn with_distance(mut self, place: usize, distance: f32) -> Self {
        self.grid[place] = distance;
        self.with_spare_room(3)
    }

    fn with_grid_length(mut self, length: usize) -> Self {
        self.grid.resize(length, 1.0);
        self.with_spare_room(3)
    }

    fn with_map(mut self, length: usize) -> Self {
        self.room.map = length;
        self
    }

    /// Room for what the call needs, and more. A call that is refused for another reason gets room for
    /// a small mesh.
    fn with_spare_room(mut self, spare: usize) -> Self {
        let grid = self.grid.len();
        let needed = room_needed(&self.view()).unwrap_or(Room::exact(2, 6, grid));
        self.room = needed.each(|length| length + spare);
        self
    }

    fn with_exact_room(self) -> Self {
        self.with_spare_room(0)
    }

    fn with_room(mut self, change: impl Fn(&mut Room)) -> Self {
        change(&mut self.room);
        self
    }
}

/// Document 01's Ball with this distance in the middle.
fn ball_with(middle: f32) -> Vec<f32> {
    let mut grid = vec![1.0; 27];
    grid[13] = middle;
    grid
}

/// Plus and minus one, negative where the pattern has a bit for the index.
fn signs(pattern: u64, points: usize) -> Vec<f32> {
    let sign = |i: usize| {
        if pattern >> (i % 64) & 1 == 1 {
            -1.0
        } else {
            1.0
        }
    };
    (0..points).map(sign).collect()
}

fn next_up(distance: f32) -> f32 {
    f32::from_bits(distance.to_bits() + 1)
}

fn bench_grids() -> Vec<Case> {
    let group = "document 01's bench grids";
    let ball = Case::ball(group);
    let along_x = |low: f32, high: f32| Case::new(group, [2; 3], [low, high].repeat(4));
    vec![
        ball.clone(),
        ball.clone().with_exact_room(),
        ball.clone().with_max_plane(),
        Case::new(group, [3; 3], vec![1.0; 27]),
        Case::new(group, [3; 3], ball_with(-0.0)),
        ball.clone().with_box([0; 3], [0, 2, 2]),
        ball.clone().with_dims([0, 3, 3]),
        Case::new(group, [16_777_217, 1, 1], vec![1.0]).with_box([0; 3], [0; 3]),
        Case::new(group, [16_777_218, 1, 1], vec![1.0]).with_box([0; 3], [0; 3]),
        ball.clone().with_box([2, 0, 0], [1, 2, 2]),
        ball.clone().with_box([0; 3], [3, 2, 2]),
        ball.clone().with_grid_length(26),
        ball.clone().with_grid_length(26).with_box([0; 3], [1; 3]),
        ball.clone().with_map(26),
        ball.clone().with_distance(26, f32::NAN),
        ball.clone()
            .with_distance(26, f32::NAN)
            .with_box([0; 3], [1; 3]),
        ball.clone().with_distance(0, DISTANCE_LIMIT),
        ball.clone().with_distance(0, next_up(DISTANCE_LIMIT)),
        ball.clone().with_room(|room| room.positions = 23),
        ball.clone()
            .with_room(|room| (room.positions, room.indices) = (23, 17)),
        ball.with_room(|room| room.indices = 17),
        along_x(1.0, -1.0),
        along_x(0.0, -1.0),
        along_x(-1.0, 0.0),
    ]
}
