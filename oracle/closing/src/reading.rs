//! A plain second reading of what closing a bed is: every point of the closed grid is asked whether it is one of the
//! open grid. It shares nothing with the crates; the wall's power is found in double precision.

/// Document 01's condition 1, with 128 bits.
fn bad_dimensions(dims: [u32; 3]) -> bool {
    dims.iter().any(|&n| n == 0 || n > 16_777_217)
        || dims.iter().map(|&n| u128::from(n)).product::<u128>() > 1 << 30
}

fn closed_dims(dims: [u32; 3]) -> [u32; 3] {
    dims.map(|n| n + 3)
}

/// Not a number, not above zero, or above 2^124, by the bits.
fn bad_wall(wall: f32) -> bool {
    let bits = wall.to_bits();
    bits == 0 || bits > (124 + 127) << 23
}

/// What stands at a point of the closed grid.
fn value(sdf: &[f32], dims: [u32; 3], wall: f32, p: [u32; 3]) -> f32 {
    if (0..3).any(|axis| p[axis] == 0 || p[axis] > dims[axis]) {
        return wall;
    }
    let [x, y, z] = p.map(|n| n as usize - 1);
    let [width, height, _] = dims.map(|n| n as usize);
    sdf[(z * height + y) * width + x]
}

/// The answer number, and what the room holds afterwards.
pub fn close(sdf: &[f32], dims: [u32; 3], wall: f32, room: &[f32]) -> (u32, Vec<f32>) {
    let mut left = room.to_vec();
    if bad_dimensions(dims) {
        return (1, left);
    }
    if sdf.len() as u128 != dims.iter().map(|&n| u128::from(n)).product() {
        return (3, left);
    }
    if bad_wall(wall) {
        return (72, left);
    }
    let [width, height, depth] = closed_dims(dims);
    if bad_dimensions([width, height, depth]) {
        return (73, left);
    }
    if (room.len() as u128) < u128::from(width) * u128::from(height) * u128::from(depth) {
        return (74, left);
    }
    let mut at = 0;
    for z in 0..depth {
        for y in 0..height {
            for x in 0..width {
                left[at] = value(sdf, dims, wall, [x, y, z]);
                at += 1;
            }
        }
    }
    (0, left)
}

/// The same of one layer.
pub fn close_layer(
    layer: &[f32],
    dims: [u32; 3],
    z: u32,
    wall: f32,
    room: &[f32],
) -> (u32, Vec<f32>) {
    let mut left = room.to_vec();
    if bad_dimensions(dims) {
        return (1, left);
    }
    if u64::from(z) >= u64::from(dims[2]) + 3 {
        return (71, left);
    }
    let border = z == 0 || z > dims[2];
    let wanted = if border {
        0
    } else {
        u64::from(dims[0]) * u64::from(dims[1])
    };
    if layer.len() as u64 != wanted {
        return (3, left);
    }
    if bad_wall(wall) {
        return (72, left);
    }
    let [width, height, depth] = closed_dims(dims);
    if bad_dimensions([width, height, depth]) {
        return (73, left);
    }
    if (room.len() as u64) < u64::from(width) * u64::from(height) {
        return (74, left);
    }
    // one layer as a grid of its own, one layer high
    let flat = [dims[0], dims[1], 1];
    let height_there = if border { 0 } else { 1 };
    let mut at = 0;
    for y in 0..height {
        for x in 0..width {
            left[at] = value(layer, flat, wall, [x, y, height_there]);
            at += 1;
        }
    }
    (0, left)
}

/// The largest of the magnitudes below zero and what was found before.
pub fn deepest(so_far: f32, sdf: &[f32]) -> f32 {
    let mut found = so_far;
    for &d in sdf {
        if !d.is_nan() && !found.is_nan() && f64::from(-d) > f64::from(found) {
            found = -d;
        }
    }
    found
}

/// The wall for so deep a bed: powers of two are exact in double precision.
pub fn wall_for(deepest: f32) -> f32 {
    if deepest.is_nan() || deepest <= 0.0 {
        return 1.0;
    }
    let wanted = f64::from(deepest) * f64::from(1 << 25);
    let mut exponent = -124;
    while exponent < 124 && 2f64.powi(exponent) < wanted {
        exponent += 1;
    }
    2f64.powi(exponent) as f32
}
