//! The answer alone: what is told is what a call answers, and is enough to lend.

use bed::{answer, counts, surface_nets_lent, Counts, Lent, LentLengths, MaxPlane, Refusal};

/// A grid of random signs and sizes, dimensions 5, 4, 6.
fn grid(mut seed: u64) -> Vec<f32> {
    let mut next = || {
        seed = seed
            .wrapping_mul(6364136223846793005)
            .wrapping_add(1442695040888963407);
        (seed >> 33) as f32 / (1u64 << 30) as f32 - 1.0
    };
    (0..120).map(|_| next()).collect()
}

const DIMS: [u32; 3] = [5, 4, 6];
const FLAGS: MaxPlane = MaxPlane {
    x: true,
    y: false,
    z: true,
};

/// The whole grid's call with lists of these lengths.
fn call(sdf: &[f32], max: [u32; 3], lengths: LentLengths) -> Result<Counts, Refusal> {
    let floats = |length: u64| vec![0.0; length as usize];
    let numbers = |length: u64| vec![0; length as usize];
    let mut lent = Lent {
        positions: &mut floats(lengths.positions),
        normals: &mut floats(lengths.normals),
        cells: &mut numbers(lengths.cells),
        strides: &mut numbers(lengths.strides),
        crossings: &mut vec![0; lengths.crossings as usize],
        stride_to_index: &mut numbers(lengths.stride_to_index),
        indices: &mut numbers(lengths.indices),
    };
    surface_nets_lent(sdf, DIMS, [0; 3], max, FLAGS, &mut lent)
}

#[test]
fn what_is_told_is_what_is_answered() {
    for seed in 0..20 {
        let sdf = grid(seed);
        let told = counts(&sdf, DIMS, [0; 3], [4, 3, 5], FLAGS).unwrap();
        let exactly = LentLengths::exactly(told, 120);
        assert_eq!(call(&sdf, [4, 3, 5], exactly), Ok(told));
        let shorter: [fn(&mut LentLengths); 7] = [
            |l| l.positions -= 1,
            |l| l.normals -= 1,
            |l| l.cells -= 1,
            |l| l.strides -= 1,
            |l| l.crossings -= 1,
            |l| l.stride_to_index -= 1,
            |l| l.indices -= 1,
        ];
        let wanted = [6, 6, 6, 6, 6, 4, 7];
        for (cut, number) in shorter.iter().zip(wanted) {
            let mut lengths = exactly;
            cut(&mut lengths);
            let asked = answer(&sdf, DIMS, [0; 3], [4, 3, 5], FLAGS, lengths);
            assert_eq!(asked, call(&sdf, [4, 3, 5], lengths));
            assert_eq!(asked.map_err(Refusal::number), Err(number));
        }
        assert_eq!(
            answer(&sdf, DIMS, [0; 3], [4, 3, 5], FLAGS, exactly),
            Ok(told)
        );
    }
}

#[test]
fn a_refusal_is_told_too() {
    let mut sdf = grid(1);
    let all = LentLengths::exactly(
        Counts {
            vertices: 100,
            indices: 10_000,
        },
        120,
    );
    let told = |sdf: &[f32], max| counts(sdf, DIMS, [0; 3], max, FLAGS);
    assert_eq!(told(&sdf, [5, 3, 5]), Err(Refusal::Box));
    assert_eq!(told(&sdf, [5, 3, 5]), call(&sdf, [5, 3, 5], all));
    assert_eq!(told(&sdf[1..], [4, 3, 5]), Err(Refusal::GridLength));
    assert_eq!(
        counts(&sdf, [0, 4, 6], [0; 3], [0; 3], FLAGS),
        Err(Refusal::Dimensions)
    );
    sdf[7] = f32::NAN;
    assert_eq!(told(&sdf, [4, 3, 5]), Err(Refusal::Distance));
    assert_eq!(told(&sdf, [4, 3, 5]), call(&sdf, [4, 3, 5], all));
    assert_eq!(told(&[1.0; 120], [4, 3, 5]), Ok(Counts::default()));
}
