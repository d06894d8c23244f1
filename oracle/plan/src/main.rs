//! plan: asks the proved checker about block plans, and where they are none for an edge that shows it, and compares each answer with plain counting; then meshes
//! plans block by block and compares their faces with the whole's; then times a plan of 200 blocks. Prints a
//! line for each part. Exit status 1 if anything differs.

mod count;
mod made;
mod mesh;

use bed::{check_plan, plan_witness, Block, MaxPlane, PlanError, Witness};
use made::Random;
use std::time::Instant;

fn differs(part: &str, blocks: &[Block], whole: &Block, says: Result<bool, PlanError>) -> ! {
    println!("{part}: {says:?} is wrong for {blocks:?} in {whole:?}");
    std::process::exit(1)
}

/// The edge that is told, against the first that counting finds.
fn witnessed(part: &str, blocks: &[Block], whole: &Block, right: Option<Witness>) {
    let says = plan_witness(blocks, whole);
    if says != Ok(right) {
        println!("{part}: {says:?} is told, and not {right:?}, for {blocks:?} in {whole:?}");
        std::process::exit(1)
    }
}

/// All lists of up to two blocks with coordinates up to 2, against every flag of the whole 0..2; and every list of
/// none or one against every whole.
fn all_small() {
    let blocks = made::small();
    let masks: Vec<u128> = blocks.iter().map(count::mask).collect();
    let (mut asked, mut plans) = (0u64, 0u64);
    let mut ask = |list: &[Block], whole: &Block, right: bool| {
        asked += 1;
        plans += right as u64;
        let says = check_plan(list, whole);
        if says != Ok(right) {
            differs("up to two blocks", list, whole, says)
        }
    };
    for (w, whole) in blocks.iter().enumerate() {
        ask(&[], whole, masks[w] == 0);
        for (b, block) in blocks.iter().enumerate() {
            ask(&[*block], whole, masks[b] == masks[w]);
        }
        if whole.min != [0; 3] || whole.max != [2; 3] {
            continue;
        }
        for b in 0..blocks.len() {
            for c in 0..blocks.len() {
                let right = masks[b] & masks[c] == 0 && masks[b] | masks[c] == masks[w];
                ask(&[blocks[b], blocks[c]], whole, right);
            }
        }
    }
    println!("up to two blocks in 0..2: asked {asked}, plans {plans}, wrong none");
}

fn three_small(r: &mut Random) {
    let blocks = made::small();
    let masks: Vec<u128> = blocks.iter().map(count::mask).collect();
    let (asked, mut plans) = (2_000_000, 0);
    for _ in 0..asked {
        let pick: Vec<usize> = (0..3)
            .map(|_| r.below(blocks.len() as u32) as usize)
            .collect();
        let list: Vec<Block> = pick.iter().map(|&i| blocks[i]).collect();
        let whole = Block {
            min: [0; 3],
            max: [2; 3],
            max_plane: made::flags(r.below(8) as usize),
        };
        let m: Vec<u128> = pick.iter().map(|&i| masks[i]).collect();
        let apart = m[0] & m[1] == 0 && (m[0] | m[1]) & m[2] == 0;
        let right = apart && m[0] | m[1] | m[2] == count::mask(&whole);
        plans += right as u32;
        let says = check_plan(&list, &whole);
        if says != Ok(right) {
            differs("three blocks", &list, &whole, says)
        }
    }
    println!("three blocks in 0..2: asked {asked}, plans {plans}, wrong none");
}

/// Wholes of up to 8 points an axis: runs of cuts, half of them with a mistake, and lists of blocks at random.
fn random_small(r: &mut Random) {
    let (asked, mut plans, mut cut, mut told) = (100_000, 0, 0, 0);
    for n in 0..asked {
        let whole = made::block(r, 8);
        let mut list = if n % 4 == 3 {
            (0..r.below(5)).map(|_| made::block(r, 8)).collect()
        } else {
            let times = r.below(12);
            made::cuts(r, &whole, times)
        };
        if n % 2 == 1 {
            made::mistyped(r, &mut list);
        } else {
            cut += 1;
        }
        let wrong = count::first_wrong(&list, &whole, 11);
        let right = wrong.is_none();
        told += u32::from(!right);
        witnessed("random plans", &list, &whole, wrong);
        if n % 2 == 0 && !right {
            println!("a run of cuts is no plan: {list:?} in {whole:?}");
            std::process::exit(1)
        }
        plans += right as u32;
        let says = check_plan(&list, &whole);
        if says != Ok(right) {
            differs("random plans", &list, &whole, says)
        }
    }
    println!("random plans: asked {asked}, runs of cuts {cut}, plans {plans}, edges told {told}, wrong none");
}

/// Coordinates up to 16,777,216, counted by the stretches between the boxes' own coordinates.
fn large(r: &mut Random) {
    let (asked, mut plans, mut told) = (20_000, 0, 0);
    for n in 0..asked {
        let whole = made::block(r, 16_777_216);
        let times = r.below(10);
        let mut list = made::cuts(r, &whole, times);
        if n % 2 == 1 {
            made::mistyped(r, &mut list);
        }
        if list.iter().any(|b| b.max.iter().any(|&c| c > 16_777_216)) {
            continue;
        }
        let wrong = count::first_wrong_anywhere(&list, &whole);
        let right = wrong.is_none();
        told += u32::from(!right);
        witnessed("large plans", &list, &whole, wrong);
        plans += right as u32;
        let says = check_plan(&list, &whole);
        if says != Ok(right) {
            differs("large plans", &list, &whole, says)
        }
    }
    println!("large plans: asked {asked}, plans {plans}, edges told {told}, wrong none");
}

fn refusals(r: &mut Random) {
    let good = Block {
        min: [1; 3],
        max: [16_777_216; 3],
        max_plane: MaxPlane::ALL,
    };
    let (asked, mut lists, mut boxes) = (100_000, 0, 0);
    for _ in 0..asked {
        let mut list = vec![good; r.below(203) as usize];
        let mut whole = good;
        let mut bad = false;
        if r.flag() {
            let i = r.below(list.len() as u32 + 1) as usize;
            let b = if i == list.len() {
                &mut whole
            } else {
                &mut list[i]
            };
            let a = r.below(3) as usize;
            match r.below(3) {
                0 => b.max[a] = 16_777_217 + r.below(2) * 4_278_190_078,
                1 => b.min[a] = 16_777_217,
                _ => b.max[a] = 0,
            }
            bad = true;
        }
        let right = if list.len() > 200 {
            lists += 1;
            Err(PlanError::List)
        } else if bad {
            boxes += 1;
            Err(PlanError::Box)
        } else {
            continue;
        };
        let says = check_plan(&list, &whole);
        if says != right || plan_witness(&list, &whole) != right.map(|_| None) {
            differs("refusals", &list, &whole, says)
        }
    }
    println!("refusals: 41 {lists}, 42 {boxes}, wrong none");
}

/// A tank of the largest coordinates, cut regularly into 5, 5 and 8 blocks on x, y and z, with its wall's flags.
fn tank() -> (Vec<Block>, Block) {
    let whole = Block {
        min: [0; 3],
        max: [16_777_216; 3],
        max_plane: made::flags(5),
    };
    let mut blocks = vec![whole];
    for (axis, parts) in [5u32, 5, 8].into_iter().enumerate() {
        let step = 16_777_216 / parts;
        blocks = blocks
            .iter()
            .flat_map(|b| {
                let mut rest = *b;
                let mut cut = Vec::new();
                for i in 1..parts {
                    let [lower, upper] = made::cut(&rest, axis, i * step);
                    cut.push(lower);
                    rest = upper;
                }
                cut.push(rest);
                cut
            })
            .collect();
    }
    (blocks, whole)
}

fn timed() {
    let (mut blocks, whole) = tank();
    let yes = check_plan(&blocks, &whole);
    let mut times: Vec<f64> = (0..1000)
        .map(|_| {
            let began = Instant::now();
            let says = check_plan(&blocks, &whole);
            let took = began.elapsed().as_secs_f64() * 1e6;
            if says != yes {
                differs("timed", &blocks, &whole, says)
            }
            took
        })
        .collect();
    times.sort_by(f64::total_cmp);
    let began = Instant::now();
    witnessed("timed", &blocks, &whole, None);
    let searched = began.elapsed().as_secs_f64() * 1e3;
    let mut wrong_flags = 0;
    for i in 0..blocks.len() {
        for a in 0..3 {
            *made::flag(&mut blocks[i], a) ^= true;
            wrong_flags += (check_plan(&blocks, &whole) == Ok(false)) as u32;
            *made::flag(&mut blocks[i], a) ^= true;
        }
    }
    println!(
        "a tank of {} blocks: {yes:?}; one flag wrong: no {wrong_flags} times of {}; median {:.0} microseconds, most {:.0}; all its edges searched in {searched:.1} ms",
        blocks.len(),
        3 * blocks.len(),
        times[500],
        times[999]
    );
    if blocks.len() != 200 || yes != Ok(true) || wrong_flags != 600 || times[500] >= 1000.0 {
        std::process::exit(1)
    }
}

fn main() {
    assert_eq!(
        (std::mem::size_of::<Block>(), std::mem::align_of::<Block>()),
        (28, 4)
    );
    let mut r = Random(0x5ea1_5ea1);
    all_small();
    three_small(&mut r);
    random_small(&mut r);
    large(&mut r);
    refusals(&mut r);
    mesh::compared(&mut r);
    timed();
}
