//! The grids of the bench: a ball, random signs, and a bed.

/// A ball that fills most of a cube.
pub fn ball(side: u32) -> Vec<f32> {
    let middle = (side - 1) as f32 / 2.0;
    let radius = side as f32 * 0.4;
    let square = |coordinate: u32| (coordinate as f32 - middle) * (coordinate as f32 - middle);
    let mut grid = Vec::with_capacity((side as usize).pow(3));
    for z in 0..side {
        for y in 0..side {
            grid.extend((0..side).map(|x| (square(x) + square(y) + square(z)).sqrt() - radius));
        }
    }
    grid
}

/// Plus or minus one at every point, by a fixed seed.
pub fn random_signs(side: u32) -> Vec<f32> {
    let mut state = 0x0BED_5EED_0BED_5EEDu64;
    let mut sign = || {
        state ^= state << 13;
        state ^= state >> 7;
        state ^= state << 17;
        if state >> 63 == 1 {
            -1.0
        } else {
            1.0
        }
    };
    (0..(side as usize).pow(3)).map(|_| sign()).collect()
}

/// Sludge below a rough height field: slopes, waves and noise by a fixed formula, as a tank's floor has them.
pub fn bed(dims: [u32; 3]) -> Vec<f32> {
    let [width, depth, layers] = dims;
    let mut grid = Vec::with_capacity((width * depth * layers) as usize);
    for z in 0..layers {
        for y in 0..depth {
            grid.extend((0..width).map(|x| z as f32 - height(x, y, layers)));
        }
    }
    grid
}

/// A third of the tank's height, give or take waves of two lengths and noise of two steps.
fn height(x: u32, y: u32, layers: u32) -> f32 {
    let (along, across) = (x as f32, y as f32);
    let long = 8.0 * (along * 0.11).sin() * (across * 0.07).cos();
    let short = 3.0 * (along * 0.9 + across * 0.6).sin();
    let noise = (x.wrapping_mul(2_654_435_761) ^ y.wrapping_mul(40_503)) >> 7 & 255;
    layers as f32 / 3.0 + long + short + noise as f32 / 128.0
}
