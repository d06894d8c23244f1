//! The blocks of a plan on the closed grid of its whole. The border is one point at min and two at max: a block that reaches a side of the whole takes the border
//! there, and every other side moves by one. Whether that is a plan of the closed whole the library is asked.

use crate::layers_of::sizes;
use crate::measuring::closed_whole;
use bed::Block;

/// The closed whole and the blocks on it, or nothing where they are no plan of it.
pub fn onto_the_closed(whole: &Block, blocks: &[Block]) -> Option<(Block, Vec<Block>)> {
    let closed = Block {
        max_plane: whole.max_plane,
        ..closed_whole(whole)
    };
    let blocks: Vec<_> = blocks.iter().map(|block| moved(whole, block)).collect();
    let plan = bed::check_plan(&blocks, &closed);
    (plan == Ok(true)).then_some((closed, blocks))
}

fn moved(whole: &Block, block: &Block) -> Block {
    let mut moved = *block;
    for (axis, size) in sizes(whole).into_iter().enumerate() {
        let (low, high) = (whole.min[axis], whole.max[axis]);
        let place = |point: u32| point.clamp(low, high) - low + 1;
        let thick = block.max[axis] - block.min[axis];
        let (from, to) = (block.min[axis], block.max[axis]);
        moved.min[axis] = if from <= low { 0 } else { place(from) };
        moved.max[axis] = match to >= high {
            // One cell, or none, stays that: such a block makes no face, and in the border it would.
            _ if thick < 2 => moved.min[axis] + thick,
            true => size + 2,
            false => place(to),
        };
    }
    moved
}

#[cfg(test)]
mod tests {
    use super::*;
    use crate::plan;
    use bed::MaxPlane;

    #[test]
    fn plans_stay_plans() {
        let mut yes = 0;
        for dims in [[12, 9, 7], [100, 60, 40], [5, 41, 6]] {
            for counts in [[1, 1, 1], [2, 1, 1], [1, 2, 3], [2, 4, 2], [10, 5, 4]] {
                let Ok(text) = plan::made(dims, counts, MaxPlane::NONE) else {
                    continue;
                };
                let plan = plan::of_text(&text);
                let (closed, blocks) =
                    onto_the_closed(&plan.whole, &plan.blocks).expect("a plan of the closed whole");
                assert_eq!(closed.max, dims.map(|size| size + 2));
                assert_eq!(blocks.len(), plan.blocks.len());
                yes += 1;
            }
        }
        assert!(yes > 10);
        let inner = Block {
            min: [3, 4, 5],
            max: [9, 9, 9],
            ..Block::default()
        };
        let halves = [
            Block {
                max: [6, 9, 9],
                ..inner
            },
            Block {
                min: [5, 4, 5],
                ..inner
            },
        ];
        let (closed, blocks) = onto_the_closed(&inner, &halves).unwrap();
        assert_eq!(closed.max, [9, 8, 7]);
        assert_eq!((blocks[0].min, blocks[0].max), ([0, 0, 0], [4, 8, 7]));
        assert_eq!((blocks[1].min, blocks[1].max), ([3, 0, 0], [9, 8, 7]));
        // the last piece has no cell of its own: on the closed grid the first one's faces would be doubled
        let thin = [
            inner,
            Block {
                min: [8, 4, 5],
                ..inner
            },
        ];
        assert_eq!(bed::check_plan(&thin, &inner), Ok(true));
        assert!(onto_the_closed(&inner, &thin).is_some());
        assert!(onto_the_closed(&inner, &halves[..1]).is_none());
    }
}
