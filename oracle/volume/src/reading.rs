//! A plain reading of document 02's request 14, with integers of 128 bits. It shares nothing with the
//! crates: the float is taken apart by its bits, the determinant goes by cofactors.

/// The answer number, and the volume: 0 on a refusal.
pub fn weigh(positions: &[f32], indices: &[u32]) -> (u32, i128) {
    if positions.len() % 3 != 0 || indices.len() % 3 != 0 {
        return (61, 0);
    }
    if indices.len() / 3 > 16_384 {
        return (62, 0);
    }
    let mut steps = Vec::new();
    for &x in positions {
        match steps_of(x) {
            Some(n) => steps.push(n),
            None => return (63, 0),
        }
    }
    let vertices = positions.len() / 3;
    if indices.iter().any(|&i| i as usize >= vertices) {
        return (64, 0);
    }
    let corner = |i: u32| {
        let at = 3 * i as usize;
        [steps[at], steps[at + 1], steps[at + 2]]
    };
    let sum = indices
        .chunks(3)
        .map(|t| determinant(corner(t[0]), corner(t[1]), corner(t[2])))
        .sum();
    (0, sum)
}

/// The whole part of 256·x for x from 0 to 128; nothing for any other x.
pub fn steps_of(x: f32) -> Option<i128> {
    let bits = x.to_bits();
    let (negative, field, digits) = (
        bits >> 31 == 1,
        bits >> 23 & 255,
        i128::from(bits & 0x7F_FFFF),
    );
    if field == 255 {
        return None;
    }
    // x is m · 2^shift / 2^149
    let (m, shift) = if field == 0 {
        (digits, 0)
    } else {
        (digits + (1 << 23), field - 1)
    };
    if negative {
        return if m == 0 { Some(0) } else { None };
    }
    // 128 is 2^23 · 2^133 / 2^149
    if shift > 133 || (shift == 133 && m > 1 << 23) {
        return None;
    }
    // 256·x is m / 2^(141 - shift)
    let down = 141 - shift;
    Some(if down < 128 { m >> down } else { 0 })
}

fn determinant(a: [i128; 3], b: [i128; 3], c: [i128; 3]) -> i128 {
    let minor = |i: usize, j: usize| b[i] * c[j] - b[j] * c[i];
    a[0] * minor(1, 2) - a[1] * minor(0, 2) + a[2] * minor(0, 1)
}
