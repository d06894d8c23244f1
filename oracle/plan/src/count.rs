//! Document 01's ownership and document 02's request 10, read plainly: edges are counted one by one.

use bed::{Block, Witness};

/// "An edge is owned if p1 is the lowest corner of a cell of the box, is above min on B and C and, unless max
/// plane, p1's coordinate along the edge is not max - 1."
pub fn owned(b: &Block, axis: usize, p: [u32; 3]) -> bool {
    let cell = (0..3).all(|a| b.min[a] <= p[a] && p[a] < b.max[a]);
    let above = (0..3).all(|a| a == axis || p[a] > b.min[a]);
    cell && above
        && ([b.max_plane.x, b.max_plane.y, b.max_plane.z][axis] || p[axis] != b.max[axis] - 1)
}

/// The edges from the points 0, 1, .. side - 1 on each axis: x edges before y before z edges, then by z, y and x.
fn edges(side: u32) -> impl Iterator<Item = (usize, [u32; 3])> {
    (0..3).flat_map(move |axis| {
        (0..side * side * side).map(move |i| (axis, [i % side, i / side % side, i / side / side]))
    })
}

/// "yes exactly if every edge the whole owns is owned by exactly one block and no block owns any other edge",
/// by counting at every edge of a grid that all boxes lie in: the first at which it is not so.
pub fn first_wrong(blocks: &[Block], whole: &Block, side: u32) -> Option<Witness> {
    edges(side).find_map(|(axis, p)| wrong(blocks, whole, axis, p))
}

/// The edge with its first two owners, unless it is owned as it should be.
fn wrong(blocks: &[Block], whole: &Block, axis: usize, at: [u32; 3]) -> Option<Witness> {
    let owners: Vec<usize> = (0..blocks.len())
        .filter(|&b| owned(&blocks[b], axis, at))
        .collect();
    (owners.len() != owned(whole, axis, at) as usize).then(|| Witness {
        axis,
        at,
        first: owners.first().copied(),
        second: owners.get(1).copied(),
    })
}

/// The owned edges of a block among the points 0, 1, 2 on each axis, a bit for each.
pub fn mask(b: &Block) -> u128 {
    edges(3)
        .enumerate()
        .filter(|(_, (axis, p))| owned(b, *axis, *p))
        .fold(0, |m, (i, _)| m | 1 << i)
}

/// The same for boxes of any size: ownership changes only where a coordinate is min, min + 1, max - 1 or max of
/// some box, so that one point of each stretch between those stands for all of it.
pub fn first_wrong_anywhere(blocks: &[Block], whole: &Block) -> Option<Witness> {
    let mut marks: [Vec<u32>; 3] = Default::default();
    for b in blocks.iter().chain([whole]) {
        for a in 0..3 {
            marks[a].extend([b.min[a], b.min[a] + 1, b.max[a], b.max[a].saturating_sub(1)]);
        }
    }
    for m in &mut marks {
        m.sort_unstable();
        m.dedup();
    }
    let [xs, ys, zs] = &marks;
    (0..3).find_map(|axis| {
        zs.iter().find_map(|&z| {
            ys.iter().find_map(|&y| {
                xs.iter()
                    .find_map(|&x| wrong(blocks, whole, axis, [x, y, z]))
            })
        })
    })
}
