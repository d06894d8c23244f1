//! The levels of the bed through the safe functions: a grid of 4, 3, 5 points with a box of 2, 3, 4, whole and layer by layer,
//! at three widths, and each refusal in its order.

use bed::LevelRefusal::{self, *};

const DIMS: [u32; 3] = [4, 3, 5];
const MIN: [u32; 3] = [1, 0, 1];
const MAX: [u32; 3] = [2, 2, 4];

/// The six columns of the box, from min z up; what lies outside the box is `outside`.
const COLUMNS: [[i8; 4]; 6] = [
    [1, 1, 1, 1],
    [1, 1, 1, -1],
    [1, -1, 3, 1],
    [-2, 2, -3, 1],
    [1, -1, 0, 0],
    [-1, 2, 5, 7],
];

/// Worked out by hand: none; max z; 2 + 1/4; 3 + 3/4; 2 + 1; 1 + 1/3 rounded.
const LEVELS: [f32; 6] = [-1.0, 4.0, 2.25, 3.75, 3.0, 1.333_333_4]; // the last one has the bits 0x3FAAAAAB

fn grid<D: Copy>(outside: D, of: impl Fn(i8) -> D) -> Vec<D> {
    let mut sdf = vec![outside; 60];
    for (j, column) in COLUMNS.iter().enumerate() {
        let (x, y) = (1 + j % 2, j / 2);
        for (n, d) in column.iter().enumerate() {
            sdf[x + 4 * (y + 3 * (1 + n))] = of(*d);
        }
    }
    sdf
}

#[test]
fn whole_at_three_widths() {
    let mut out = [7.0; 8];
    assert_eq!(
        bed::levels_lent(&grid(f32::NAN, f32::from), DIMS, MIN, MAX, &mut out),
        Ok(())
    );
    assert_eq!(out[..6], LEVELS);
    assert_eq!(out[6..], [7.0, 7.0]);
    let mut out = [7.0; 6];
    assert_eq!(
        bed::levels_lent(&grid(i16::MIN, i16::from), DIMS, MIN, MAX, &mut out),
        Ok(())
    );
    assert_eq!(out, LEVELS);
    let mut out = [7.0; 6];
    assert_eq!(
        bed::levels_lent(&grid(i8::MIN, |d| d), DIMS, MIN, MAX, &mut out),
        Ok(())
    );
    assert_eq!(out, LEVELS);
}

#[test]
fn negative_zero_is_not_below_zero() {
    let mut out = [7.0];
    assert_eq!(
        bed::levels_lent(&[-0.0f32, -0.0], [1, 1, 2], [0; 3], [0, 0, 1], &mut out),
        Ok(())
    );
    assert_eq!(out, [-1.0]);
}

/// All layers in turn over a grid of any kind.
fn in_turn<D>(
    sdf: &[D],
    out: &mut [f32],
    take: impl Fn(&[D], &[D], u32, &mut [f32]) -> Result<(), LevelRefusal>,
) {
    for z in 1..5 {
        let below = if z == 1 {
            &[]
        } else {
            &sdf[12 * (z - 1)..12 * z]
        };
        assert_eq!(
            take(below, &sdf[12 * z..12 * (z + 1)], z as u32, out),
            Ok(())
        );
    }
}

#[test]
fn layers_leave_the_levels() {
    let mut out = [7.0; 8];
    in_turn(
        &grid(f32::NAN, f32::from),
        &mut out,
        |below, layer, z, out| bed::levels_layer(below, layer, DIMS, MIN, MAX, z, out),
    );
    assert_eq!(out[..6], LEVELS);
    assert_eq!(out[6..], [7.0, 7.0]);
    let mut out = [7.0; 6];
    in_turn(
        &grid(i16::MIN, i16::from),
        &mut out,
        |below, layer, z, out| bed::levels_layer(below, layer, DIMS, MIN, MAX, z, out),
    );
    assert_eq!(out, LEVELS);
    let mut out = [7.0; 6];
    in_turn(&grid(i8::MIN, |d| d), &mut out, |below, layer, z, out| {
        bed::levels_layer(below, layer, DIMS, MIN, MAX, z, out)
    });
    assert_eq!(out, LEVELS);
}

#[test]
fn refusals_in_order_change_nothing() {
    let bad = {
        let mut sdf = grid(f32::NAN, f32::from);
        sdf[2 + 4 * (2 + 3 * 4)] = f32::NAN;
        sdf
    };
    let mut out = [7.0; 5];
    let mut ask = |dims, max, len: usize| bed::levels_lent(&bad[..len], dims, MIN, max, &mut out);
    assert_eq!(ask([4, 3, 0], [0, 2, 4], 59), Err(Dimensions));
    assert_eq!(ask(DIMS, [0, 2, 4], 59), Err(Box));
    assert_eq!(ask(DIMS, MAX, 59), Err(Length));
    assert_eq!(ask(DIMS, MAX, 60), Err(Distance));
    let good = grid(f32::NAN, f32::from);
    assert_eq!(bed::levels_lent(&good, DIMS, MIN, MAX, &mut out), Err(Room));
    let mut offer = |below: &[f32], layer: &[f32], dims, max, z| {
        bed::levels_layer(below, layer, dims, MIN, max, z, &mut out)
    };
    assert_eq!(
        offer(&[0.0], &bad[..13], [0, 3, 5], [0, 2, 4], 5),
        Err(Dimensions)
    );
    assert_eq!(offer(&[0.0], &bad[..13], DIMS, [0, 2, 4], 5), Err(Box));
    assert_eq!(offer(&[0.0], &bad[..13], DIMS, MAX, 5), Err(Height));
    assert_eq!(offer(&[0.0], &bad[..13], DIMS, MAX, 0), Err(Height));
    assert_eq!(offer(&bad[36..48], &bad[47..60], DIMS, MAX, 4), Err(Length));
    assert_eq!(offer(&bad[..12], &bad[12..24], DIMS, MAX, 1), Err(Length));
    assert_eq!(offer(&[], &bad[24..36], DIMS, MAX, 2), Err(Length));
    assert_eq!(
        offer(&bad[36..48], &bad[48..60], DIMS, MAX, 4),
        Err(Distance)
    );
    assert_eq!(
        offer(&bad[48..60], &bad[36..48], DIMS, MAX, 3),
        Err(Distance)
    );
    assert_eq!(offer(&good[36..48], &good[48..60], DIMS, MAX, 4), Err(Room));
    assert_eq!(out, [7.0; 5]);
}
