//! Cells and faces counted plainly, by document 01's words: each cell by its eight corners, each edge by its own ownership.

/// Dimensions, a box and the max plane.
#[derive(Clone, Copy)]
pub struct Asked {
    pub dims: [u32; 3],
    pub min: [u32; 3],
    pub max: [u32; 3],
    pub plane: [bool; 3],
}

/// Cells with eight negative corners, cells with 1 to 7, and six for each face.
pub type Counts = [u64; 3];

impl Asked {
    pub fn layer_len(&self) -> u128 {
        u128::from(self.dims[0]) * u128::from(self.dims[1])
    }

    fn refused(&self) -> u32 {
        let most = self.dims.iter().any(|&n| n == 0 || n > 16_777_217);
        if most || self.layer_len() * u128::from(self.dims[2]) > 1 << 30 {
            return 1;
        }
        let turned = (0..3).any(|a| self.min[a] > self.max[a] || self.max[a] >= self.dims[a]);
        2 * u32::from(turned)
    }

    fn bad(&self, layer: &[f32]) -> bool {
        let cap = f64::powi(2.0, 124);
        (self.min[1]..=self.max[1]).any(|y| {
            (self.min[0]..=self.max[0]).any(|x| {
                let d = layer[(x + self.dims[0] * y) as usize];
                f64::from(d).abs() > cap || d.is_nan()
            })
        })
    }

    /// The counts of the cells at z, whose points are told by `negative`.
    fn cells(&self, z: u32, negative: impl Fn([u32; 3]) -> bool) -> Counts {
        let mut counts = [0; 3];
        for y in self.min[1]..self.max[1] {
            for x in self.min[0]..self.max[0] {
                let p = [x, y, z];
                let corners = (0..8).filter(|i| negative([x + i % 2, y + i / 2 % 2, z + i / 4]));
                match corners.count() {
                    0 => {}
                    8 => counts[0] += 1,
                    _ => counts[1] += 1,
                }
                for along in 0..3 {
                    let mut end = p;
                    end[along] += 1;
                    let beside = [(along + 1) % 3, (along + 2) % 3];
                    let owned = beside.iter().all(|&a| p[a] > self.min[a])
                        && (self.plane[along] || p[along] != self.max[along] - 1);
                    counts[2] += 6 * u64::from(owned && negative(p) != negative(end));
                }
            }
        }
        counts
    }
}

fn more(a: Counts, b: Counts) -> Counts {
    [a[0] + b[0], a[1] + b[1], a[2] + b[2]]
}

/// The answer to a whole grid; on 0 the counts are put into `out`.
pub fn whole(sdf: &[f32], asked: Asked, out: &mut Counts) -> u32 {
    let refused = asked.refused();
    if refused != 0 {
        return refused;
    }
    let plane = asked.layer_len() as usize;
    if sdf.len() != plane * asked.dims[2] as usize {
        return 3;
    }
    let layer = |z: u32| &sdf[plane * z as usize..][..plane];
    if (asked.min[2]..=asked.max[2]).any(|z| asked.bad(layer(z))) {
        return 5;
    }
    let negative = |p: [u32; 3]| layer(p[2])[(p[0] + asked.dims[0] * p[1]) as usize] < 0.0;
    *out = (asked.min[2]..asked.max[2])
        .map(|z| asked.cells(z, negative))
        .fold([0; 3], more);
    0
}

/// The answer to a layer; on 0 the counts in `out` are those after it.
pub fn layer(below: &[f32], layer: &[f32], asked: Asked, z: u32, out: &mut Counts) -> u32 {
    let refused = asked.refused();
    if refused != 0 {
        return refused;
    }
    if z < asked.min[2] || asked.max[2] < z {
        return 91;
    }
    let plane = asked.layer_len() as usize;
    let lowest = z == asked.min[2];
    if layer.len() != plane || below.len() != if lowest { 0 } else { plane } {
        return 3;
    }
    if asked.bad(layer) || !lowest && asked.bad(below) {
        return 5;
    }
    if lowest {
        *out = [0; 3];
        return 0;
    }
    if out.iter().any(|&count| count > 1 << 60) {
        return 92;
    }
    let negative = |p: [u32; 3]| {
        let list = if p[2] == z { layer } else { below };
        list[(p[0] + asked.dims[0] * p[1]) as usize] < 0.0
    };
    *out = more(*out, asked.cells(z - 1, negative));
    0
}
