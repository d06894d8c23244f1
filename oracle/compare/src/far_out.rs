//! Cells next to coordinate 2^24, where a float still names every whole number but nothing between.
//!
//! One axis has 16,777,217 points and the others three, so that such cells have faces too. The grid and
//! both maps are made once and used for all calls: the library's map and the Rust's start equal and
//! must stay equal over their whole length.

use crate::calls::{old_contents, some_flags};
use crate::fields::FIELDS;
use crate::library;
use crate::random::Random;
use crate::tally::Tally;
use oracle::call::{Call, Lent, Room};
use oracle::expected::{room_needed, write_mesh};
use oracle::model::{index, points, verdict};
use oracle::published::Mesh;

const LONG: u32 = 16_777_217;
const CALLS_AN_AXIS: usize = 22;

/// The last points of the long axis that boxes reach back to.
const REACH: u32 = 6;

/// Makes all calls and counts them.
pub fn run(tally: &mut Tally, random: &mut Random) {
    let points = 9 * LONG as usize;
    let mut grid = vec![1.0f32; points];
    let mut map: Vec<u32> = (0..LONG).cycle().take(points).collect();
    let mut mesh = Mesh {
        stride_to_index: map.clone(),
        ..Mesh::default()
    };
    for axis in 0..3 {
        for turn in 0..CALLS_AN_AXIS {
            let far = far_box(random, axis);
            let field = FIELDS[turn % FIELDS.len()];
            let points = box_points(&far);
            let mut distances = vec![0.0; points.len()];
            field.fill(random, [points.len() as u32, 1, 1], &mut distances);
            for (&place, &distance) in points.iter().zip(&distances) {
                grid[place] = distance;
            }
            let call = Call { grid: &grid, ..far };
            compare(tally, random, &call, &mut map, &mut mesh);
            for &place in &points {
                grid[place] = 1.0;
            }
        }
    }
}

/// A box at the far end of one axis and across the others, still without a grid.
fn far_box(random: &mut Random, axis: usize) -> Call<'static> {
    let mut dims = [3; 3];
    dims[axis] = LONG;
    let mut min = [0; 3];
    min[axis] = LONG - 1 - random.coordinate(1, REACH);
    Call {
        grid: &[],
        dims,
        min,
        max: dims.map(|dim| dim - 1),
        max_plane: some_flags(random),
    }
}

/// The places of the box's points in the grid.
fn box_points(call: &Call) -> Vec<usize> {
    let points = points(call.min, call.max);
    points.map(|point| index(call, point) as usize).collect()
}

fn compare(tally: &mut Tally, random: &mut Random, call: &Call, map: &mut [u32], mesh: &mut Mesh) {
    let needed = room_needed(call).expect("the call is accepted with enough room");
    let expected = verdict(call, &needed);
    let lists = Room { map: 0, ..needed };
    let mut contents = old_contents(&lists, random);
    let mut written = contents.clone();
    mesh.run(call);
    write_mesh(&mut contents, mesh);
    let answered = library::run(
        call,
        Lent {
            map,
            ..written.lend()
        },
    );
    tally.count(call, &expected, mesh);
    if answered != expected || written != contents || *map != mesh.stride_to_index {
        tally.differing += 1;
        println!(
            "DIFFERENT: dimensions {:?}, box {:?} to {:?}",
            call.dims, call.min, call.max
        );
    }
}
