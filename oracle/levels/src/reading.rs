//! The level of the bed, read plainly: each column from the top down, by the words and not by the fold that the library makes.

/// Dimensions and a box.
#[derive(Clone, Copy)]
pub struct Asked {
    pub dims: [u32; 3],
    pub min: [u32; 3],
    pub max: [u32; 3],
}

impl Asked {
    pub fn columns(&self) -> usize {
        (self.max[0] - self.min[0] + 1) as usize * (self.max[1] - self.min[1] + 1) as usize
    }

    pub fn plane(&self) -> u128 {
        u128::from(self.dims[0]) * u128::from(self.dims[1])
    }

    fn refused(&self) -> u32 {
        let most = self.dims.iter().any(|&n| n == 0 || n > 16_777_217);
        if most || self.plane() * u128::from(self.dims[2]) > 1 << 30 {
            return 1;
        }
        let turned = (0..3).any(|a| self.min[a] > self.max[a] || self.max[a] >= self.dims[a]);
        if turned {
            2
        } else {
            0
        }
    }

    /// The columns of the box in their order, x innermost.
    pub fn each(self) -> impl Iterator<Item = (usize, usize)> {
        (self.min[1]..=self.max[1])
            .flat_map(move |y| (self.min[0]..=self.max[0]).map(move |x| (x as usize, y as usize)))
    }

    fn bad_layer(&self, layer: &[f32]) -> bool {
        let cap = f64::powi(2.0, 124);
        let beyond = |d: f32| !(f64::from(d).abs() <= cap);
        let row = self.dims[0] as usize;
        self.each().any(|(x, y)| beyond(layer[x + row * y]))
    }
}

/// The level of a column of distances whose lowest has the height `low`.
pub fn level(low: u32, column: &[f32]) -> f32 {
    let Some(highest) = column.iter().rposition(|&d| d < 0.0) else {
        return -1.0;
    };
    let z = (low + highest as u32) as f32;
    match column.get(highest + 1) {
        None => z,
        Some(above) => {
            let d = column[highest];
            let gap = d - above;
            z + d / gap
        }
    }
}

/// The answer to a whole grid; on 0 the levels are put into `out`.
pub fn whole(sdf: &[f32], asked: Asked, out: &mut [f32]) -> u32 {
    let refused = asked.refused();
    if refused != 0 {
        return refused;
    }
    let plane = asked.plane() as usize;
    if sdf.len() != plane * asked.dims[2] as usize {
        return 3;
    }
    let layers = || (asked.min[2]..=asked.max[2]).map(|z| &sdf[plane * z as usize..][..plane]);
    if layers().any(|layer| asked.bad_layer(layer)) {
        return 5;
    }
    if out.len() < asked.columns() {
        return 78;
    }
    for (j, (x, y)) in asked.each().enumerate() {
        let column: Vec<f32> = layers()
            .map(|layer| layer[x + asked.dims[0] as usize * y])
            .collect();
        out[j] = level(asked.min[2], &column);
    }
    0
}

/// The answer to a layer; on 0 the levels in `out` are those after it.
pub fn layer(below: &[f32], layer: &[f32], asked: Asked, z: u32, out: &mut [f32]) -> u32 {
    let refused = asked.refused();
    if refused != 0 {
        return refused;
    }
    if z < asked.min[2] || asked.max[2] < z {
        return 77;
    }
    let plane = asked.plane() as usize;
    let lowest = z == asked.min[2];
    if layer.len() != plane || below.len() != if lowest { 0 } else { plane } {
        return 3;
    }
    if asked.bad_layer(layer) || !lowest && asked.bad_layer(below) {
        return 5;
    }
    if out.len() < asked.columns() {
        return 78;
    }
    for (j, (x, y)) in asked.each().enumerate() {
        let at = x + asked.dims[0] as usize * y;
        let here = layer[at];
        if lowest {
            out[j] = level(z, &[here]);
        } else if here < 0.0 || below[at] < 0.0 {
            out[j] = level(z - 1, &[below[at], here]);
        }
    }
    0
}
