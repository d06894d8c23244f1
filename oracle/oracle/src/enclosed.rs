//! A plain model of document 02's request 8: the premise, the refusals before it, and the pairs of cells
//! that the law speaks of without the premise.

use crate::call::Call;
use crate::model::{cells, distance, owned, points, refused_before_counting};

/// The answer number, 0 to 3, and the test's outcome, false on a refusal.
#[derive(Clone, Copy, Debug, PartialEq, Eq)]
pub struct Enclosed {
    pub answer: u32,
    pub enclosed: bool,
}

/// Conditions 1 to 3 of document 01, and then the premise.
pub fn enclosed(call: &Call) -> Enclosed {
    match refused_before_counting(call, call.grid.len()) {
        Some(answer @ 1..=3) => Enclosed {
            answer,
            enclosed: false,
        },
        _ => Enclosed {
            answer: 0,
            enclosed: margin(call).all(|point| !is_negative(call, point)),
        },
    }
}

fn is_negative(call: &Call, point: [u32; 3]) -> bool {
    distance(call, point) < 0.0
}

/// The points of an accepted box that are not from min + 1 to max - 2 on each axis.
pub fn margin<'a>(call: &'a Call) -> impl Iterator<Item = [u32; 3]> + 'a {
    points(call.min, call.max).filter(|point| {
        (0..3).any(|axis| point[axis] == call.min[axis] || call.max[axis] - point[axis] < 2)
    })
}

/// Each pair of neighbour cells, the second one step up on an axis, whose shared square has all its four
/// edges owned.
pub fn pairs<'a>(call: &'a Call) -> impl Iterator<Item = [[u32; 3]; 2]> + 'a {
    let up = |axis: usize, mut point: [u32; 3]| {
        point[axis] += 1;
        point
    };
    let axes = move |cell| (0..3).map(move |axis| (axis, cell));
    cells(call).flat_map(axes).filter_map(move |(axis, cell)| {
        let (b, c) = ((axis + 1) % 3, (axis + 2) % 3);
        let corner = up(axis, cell);
        let edges = [
            (b, corner),
            (b, up(c, corner)),
            (c, corner),
            (c, up(b, corner)),
        ];
        let all_owned = edges
            .iter()
            .all(|&(along, p1)| is_cell(call, p1) && owned(call, along, p1));
        all_owned.then_some([cell, corner])
    })
}

fn is_cell(call: &Call, point: [u32; 3]) -> bool {
    (0..3).all(|axis| (call.min[axis]..call.max[axis]).contains(&point[axis]))
}
