//! Block plans: the pinwheel, which no run of cuts makes, what is not a plan of it, and the refusals.

use bed::{check_plan, plan_witness, Block, MaxPlane, PlanError, Witness};

fn flat(x: [u32; 2], y: [u32; 2]) -> Block {
    Block {
        min: [x[0], y[0], 0],
        max: [x[1], y[1], 3],
        max_plane: MaxPlane::NONE,
    }
}

fn pinwheel() -> Vec<Block> {
    vec![
        flat([0, 3], [0, 2]),
        flat([2, 4], [0, 3]),
        flat([1, 4], [2, 4]),
        flat([0, 2], [1, 4]),
        flat([1, 3], [1, 3]),
    ]
}

fn tank() -> Block {
    flat([0, 4], [0, 4])
}

#[test]
fn a_block_is_laid_out_as_in_c() {
    assert_eq!(std::mem::size_of::<Block>(), 28);
    assert_eq!(std::mem::align_of::<Block>(), 4);
}

#[test]
fn the_pinwheel_is_a_plan_and_nothing_beside_it() {
    assert_eq!(check_plan(&pinwheel(), &tank()), Ok(true));
    for i in 0..5 {
        let mut left_out = pinwheel();
        left_out.remove(i);
        assert_eq!(check_plan(&left_out, &tank()), Ok(false));
        let mut doubled = pinwheel();
        doubled.push(doubled[i]);
        assert_eq!(check_plan(&doubled, &tank()), Ok(false));
        let mut moved = pinwheel();
        moved[i].min[0] += 1;
        moved[i].max[0] += 1;
        assert_eq!(check_plan(&moved, &tank()), Ok(false));
    }
}

#[test]
fn blocks_of_one_cell_own_nothing() {
    let cell = |at: u32| Block {
        min: [at; 3],
        max: [at + 1; 3],
        max_plane: MaxPlane::ALL,
    };
    let mut blocks = pinwheel();
    blocks.extend([cell(0), cell(9), cell(9)]);
    assert_eq!(check_plan(&blocks, &tank()), Ok(true));
    assert_eq!(check_plan(&[], &cell(5)), Ok(true));
    assert_eq!(check_plan(&[], &tank()), Ok(false));
}

/// 2^66 edges on each axis, which is 0 modulo 2^64.
#[test]
fn sizes_past_64_bits_are_counted() {
    let large = Block {
        min: [0; 3],
        max: [4_194_305; 3],
        max_plane: MaxPlane::ALL,
    };
    assert_eq!(check_plan(&[], &large), Ok(false));
    assert_eq!(check_plan(&[large], &large), Ok(true));
}

#[test]
fn the_list_is_refused_before_a_box() {
    let turned = Block {
        min: [1, 0, 0],
        ..Block::default()
    };
    let far = Block {
        max: [16_777_217, 0, 0],
        ..Block::default()
    };
    assert_eq!(check_plan(&[turned; 201], &tank()), Err(PlanError::List));
    assert_eq!(check_plan(&[turned; 200], &tank()), Err(PlanError::Box));
    assert_eq!(check_plan(&pinwheel(), &far), Err(PlanError::Box));
    assert_eq!(
        (PlanError::List.number(), PlanError::Box.number()),
        (41, 42)
    );
}

/// One edge is told of each list that is no plan, by hand: of the pinwheel's x edges at y 1, z 1 the first block owns 0 and 1, the second 2.
#[test]
fn where_it_is_no_plan() {
    let edge = |axis, at, first, second| {
        Ok(Some(Witness {
            axis,
            at,
            first,
            second,
        }))
    };
    assert_eq!(plan_witness(&pinwheel(), &tank()), Ok(None));
    assert_eq!(
        plan_witness(&pinwheel()[1..], &tank()),
        edge(0, [0, 1, 1], None, None)
    );
    assert_eq!(plan_witness(&[], &tank()), edge(0, [0, 1, 1], None, None));
    let mut doubled = pinwheel();
    doubled.push(doubled[1]);
    assert_eq!(
        plan_witness(&doubled, &tank()),
        edge(0, [2, 1, 1], Some(1), Some(5))
    );
    // a max plane too many: y edges from y 3, of the tank's last cells, that the tank does not own
    let mut walled = pinwheel();
    walled[2].max_plane.y = true;
    assert_eq!(
        plan_witness(&walled, &tank()),
        edge(1, [2, 3, 1], Some(2), None)
    );
    let turned = Block {
        min: [1, 0, 0],
        ..Block::default()
    };
    assert_eq!(plan_witness(&[turned; 201], &tank()), Err(PlanError::List));
    assert_eq!(plan_witness(&[turned; 200], &tank()), Err(PlanError::Box));
    assert_eq!(plan_witness(&pinwheel(), &turned), Err(PlanError::Box));
}
