//! Blocks and plans to ask about: all small ones, and random ones of which many are plans.

use bed::{Block, MaxPlane};

/// Numbers that look random, the same on every machine (xorshift64*).
pub struct Random(pub u64);

impl Random {
    pub fn next(&mut self) -> u64 {
        self.0 ^= self.0 >> 12;
        self.0 ^= self.0 << 25;
        self.0 ^= self.0 >> 27;
        self.0.wrapping_mul(0x2545_f491_4f6c_dd1d) >> 11
    }

    pub fn below(&mut self, n: u32) -> u32 {
        (self.next() % n as u64) as u32
    }

    pub fn flag(&mut self) -> bool {
        self.next() % 2 == 0
    }
}

pub fn flags(bits: usize) -> MaxPlane {
    MaxPlane {
        x: bits & 1 != 0,
        y: bits & 2 != 0,
        z: bits & 4 != 0,
    }
}

/// The flag of an axis.
pub fn flag(b: &mut Block, axis: usize) -> &mut bool {
    match axis {
        0 => &mut b.max_plane.x,
        1 => &mut b.max_plane.y,
        _ => &mut b.max_plane.z,
    }
}

/// Every block with coordinates up to 2, flat ones included: 216 boxes with 8 flags each.
pub fn small() -> Vec<Block> {
    let sides: Vec<[u32; 2]> = (0..3).flat_map(|l| (l..3).map(move |h| [l, h])).collect();
    let mut all = Vec::new();
    for x in &sides {
        for y in &sides {
            for z in &sides {
                for bits in 0..8 {
                    all.push(Block {
                        min: [x[0], y[0], z[0]],
                        max: [x[1], y[1], z[1]],
                        max_plane: flags(bits),
                    });
                }
            }
        }
    }
    all
}

pub fn block(r: &mut Random, side: u32) -> Block {
    let mut b = Block::default();
    for a in 0..3 {
        let (p, q) = (r.below(side + 1), r.below(side + 1));
        (b.min[a], b.max[a]) = (p.min(q), p.max(q));
        *flag(&mut b, a) = r.flag();
    }
    b
}

/// A block cut on an axis at k: document 02, request 4, has the lower piece's flag off there.
pub fn cut(b: &Block, axis: usize, k: u32) -> [Block; 2] {
    let (mut lower, mut upper) = (*b, *b);
    lower.max[axis] = k + 1;
    *flag(&mut lower, axis) = false;
    upper.min[axis] = k;
    [lower, upper]
}

/// A run of random cuts, in random order, with some boxes that own nothing.
pub fn cuts(r: &mut Random, whole: &Block, times: u32) -> Vec<Block> {
    let mut blocks = vec![*whole];
    for _ in 0..times {
        let i = r.below(blocks.len() as u32) as usize;
        let axis = r.below(3) as usize;
        let (low, high) = (blocks[i].min[axis], blocks[i].max[axis]);
        if low < high {
            let [a, b] = cut(&blocks[i], axis, low + r.below(high - low));
            blocks[i] = a;
            blocks.push(b);
        }
    }
    if r.flag() {
        let at = [0; 3].map(|_: u32| r.below(9));
        let mut one = Block {
            min: at,
            max: at.map(|c| c + 1),
            max_plane: MaxPlane::ALL,
        };
        if r.flag() {
            one.max[r.below(3) as usize] -= 1;
        }
        blocks.push(one);
    }
    for i in (1..blocks.len()).rev() {
        blocks.swap(i, r.below(i as u32 + 1) as usize);
    }
    blocks
}

/// One small mistake of typing: a coordinate off by one, a flag, a block left out or twice.
pub fn mistyped(r: &mut Random, blocks: &mut Vec<Block>) {
    if blocks.is_empty() {
        return;
    }
    let i = r.below(blocks.len() as u32) as usize;
    let axis = r.below(3) as usize;
    match r.below(6) {
        0 => blocks[i].min[axis] = (blocks[i].min[axis] + 1).min(blocks[i].max[axis]),
        1 => blocks[i].max[axis] += 1,
        2 => blocks[i].max[axis] = (blocks[i].max[axis].max(1) - 1).max(blocks[i].min[axis]),
        3 => *flag(&mut blocks[i], axis) ^= true,
        4 => drop(blocks.swap_remove(i)),
        _ => blocks.push(blocks[i]),
    }
}
