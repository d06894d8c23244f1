//! A plain reading of the weighing, with integers of 128 bits. It shares nothing with the crates: a coordinate
//! becomes steps by 64-bit floats, in which it and its product with 256 are exact, and the area goes by the corners'
//! cross products.

/// The answer number, the sum and the shadow: 0 on a refusal.
pub fn weigh(positions: &[f32], first: u32, indices: &[u32]) -> (u32, i128, i128) {
    if positions.len() % 3 != 0 || indices.len() % 3 != 0 {
        return (61, 0, 0);
    }
    if positions.iter().any(|x| !(0.0..=16_777_216.0).contains(x)) {
        return (63, 0, 0);
    }
    let vertices = positions.len() as u64 / 3;
    let lent = u64::from(first)..u64::from(first) + vertices;
    if indices.iter().any(|&v| !lent.contains(&u64::from(v))) {
        return (64, 0, 0);
    }
    if indices.len() as u64 / 3 > 1 << 33 {
        return (75, 0, 0);
    }
    let corner = |v: u32| -> [i128; 3] {
        let at = 3 * (v - first) as usize;
        [0, 1, 2].map(|axis| steps_of(positions[at + axis]))
    };
    let (mut sum, mut shadow) = (0, 0);
    for t in indices.chunks(3) {
        let [a, b, c] = [corner(t[0]), corner(t[1]), corner(t[2])];
        for other in [b, c] {
            if (0..2).any(|axis| (other[axis] - a[axis]).abs() > 512) {
                return (76, 0, 0);
            }
        }
        let cross = |p: [i128; 3], q: [i128; 3]| p[0] * q[1] - p[1] * q[0];
        let area = cross(a, b) + cross(b, c) + cross(c, a);
        sum += area * (a[2] + b[2] + c[2]);
        shadow += area;
    }
    (0, sum, shadow)
}

/// The whole part of 256·x, for x from 0 to 16,777,216.
pub fn steps_of(x: f32) -> i128 {
    (f64::from(x) * 256.0).floor() as i128
}
