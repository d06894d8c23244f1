//! Fixtures through the wrapper: a rake cut out of a bed and meshed, a second cut, layer by layer, whole numbers, and a refusal of each kind.

use bed::{
    cut_fixtures, cut_fixtures_layer, cut_fixtures_layer_into, surface_nets, FixtureRefusal,
    MaxPlane, SurfaceNetsBuffer,
};

/// Eight words, little-endian.
fn record(words: [u32; 8]) -> Vec<u8> {
    words.iter().flat_map(|word| word.to_le_bytes()).collect()
}

fn boxed(sides: [f32; 6]) -> Vec<u8> {
    let [a, b, c, d, e, f] = sides.map(f32::to_bits);
    record([1, a, b, c, d, e, f, 0])
}

fn group(kind: u32, count: u32) -> Vec<u8> {
    record([kind, count, 0, 0, 0, 0, 0, 0])
}

/// A beam less two slots.
fn rake() -> Vec<u8> {
    [
        group(4, 2),
        boxed([0.5, 1.0, 1.0, 3.5, 3.0, 3.0]),
        group(2, 2),
        boxed([1.25, 0.0, 1.5, 1.75, 4.0, 4.0]),
        boxed([2.25, 0.0, 1.5, 2.75, 4.0, 4.0]),
    ]
    .concat()
}

/// Five points on each axis, the top between the layers 3 and 4.
fn bed() -> Vec<f32> {
    (0..125).map(|place| (place / 25) as f32 - 3.5).collect()
}

fn mesh(sdf: &[f32]) -> (usize, usize) {
    let mut buffer = SurfaceNetsBuffer::default();
    surface_nets(sdf, [5; 3], [0; 3], [4; 3], MaxPlane::NONE, &mut buffer).unwrap();
    (buffer.positions.len(), buffer.indices.len())
}

fn bits(floats: &[f32]) -> Vec<u32> {
    floats.iter().map(|float| float.to_bits()).collect()
}

#[test]
fn a_rake_is_cut_out_and_meshed() {
    let mut sdf = bed();
    assert_eq!(mesh(&sdf), (16, 0));
    assert_eq!(cut_fixtures(&rake(), [5; 3], &mut sdf), Ok(()));
    assert_eq!(mesh(&sdf), (52, 162));
}

#[test]
fn a_second_cut_changes_nothing() {
    let mut sdf = bed();
    sdf[62] = f32::from_bits(0xFFC1_2345);
    cut_fixtures(&rake(), [5; 3], &mut sdf).unwrap();
    let once = bits(&sdf);
    assert_eq!(once[62], 0xFFC1_2345);
    cut_fixtures(&rake(), [5; 3], &mut sdf).unwrap();
    assert_eq!(bits(&sdf), once);
}

#[test]
fn zeros_of_both_signs_go_by_the_record() {
    let mut sdf = [-1.0];
    let file = boxed([-5.0, -0.0, -5.0, 0.0, 5.0, 5.0]);
    cut_fixtures(&file, [1; 3], &mut sdf).unwrap();
    assert_eq!(sdf[0].to_bits(), 0);
}

#[test]
fn each_fault_has_its_refusal() {
    let good = boxed([0.0; 6]);
    let deep = [group(2, 1).repeat(8), good.clone()].concat();
    let infinite = boxed([f32::INFINITY, 0.0, 0.0, 0.0, 0.0, 0.0]);
    for (file, refusal, number) in [
        (Vec::new(), FixtureRefusal::Cut, 51),
        (group(2, u32::MAX), FixtureRefusal::Cut, 51),
        (record([5; 8]), FixtureRefusal::Kind, 52),
        (deep, FixtureRefusal::Deep, 53),
        (group(4, 3), FixtureRefusal::Word, 54),
        (infinite, FixtureRefusal::Float, 55),
        ([&good[..], &[0]].concat(), FixtureRefusal::After, 56),
    ] {
        let mut sdf = [-1.0];
        assert_eq!(cut_fixtures(&file, [1; 3], &mut sdf), Err(refusal));
        assert_eq!((refusal.number(), sdf), (number, [-1.0]));
    }
    let dims = cut_fixtures(&good, [0, 1, 1], &mut [-1.0]);
    assert_eq!(dims, Err(FixtureRefusal::Dimensions));
    let long = cut_fixtures(&good, [1; 3], &mut [-1.0; 2]);
    assert_eq!(long, Err(FixtureRefusal::GridLength));
}

#[test]
fn a_refusal_says_its_reason() {
    let error: Box<dyn std::error::Error> = Box::new(FixtureRefusal::Deep);
    assert_eq!(error.to_string(), "a record lies deeper than 8");
}

#[test]
fn layers_one_by_one_are_the_whole() {
    // rows of 33, so that no batch of 32 ends with a row
    let dims = [33, 5, 4];
    let grid: Vec<f32> = (0..660).map(|place| (place % 7) as f32 - 6.0).collect();
    let file = [
        group(2, 2),
        boxed([29.5, 1.0, 0.5, 40.0, 3.0, 2.0]),
        boxed([0.0, 0.0, 0.0, 3.0, 9.0, 1.25]),
    ]
    .concat();
    let mut whole = grid.clone();
    cut_fixtures(&file, dims, &mut whole).unwrap();
    assert_ne!(bits(&whole), bits(&grid));
    let mut layered = grid.clone();
    for (z, layer) in (0..).zip(layered.chunks_exact_mut(165)) {
        cut_fixtures_layer(&file, dims, z, layer).unwrap();
    }
    assert_eq!(bits(&layered), bits(&whole));
    // the same from whole numbers, into longer room
    let wholes: Vec<i8> = grid.iter().map(|&distance| distance as i8).collect();
    let wide: Vec<i16> = wholes.iter().map(|&distance| distance.into()).collect();
    for z in 0..4 {
        let layer = 165 * z..165 * z + 165;
        for into in [
            |f: &[u8], _: &[i16], b: &[i8], d, z, out: &mut [f32]| {
                cut_fixtures_layer_into(f, b, d, z, out)
            },
            |f: &[u8], s: &[i16], _: &[i8], d, z, out: &mut [f32]| {
                cut_fixtures_layer_into(f, s, d, z, out)
            },
        ] {
            let mut out = [77.0; 167];
            into(
                &file,
                &wide[layer.clone()],
                &wholes[layer.clone()],
                dims,
                z as u32,
                &mut out,
            )
            .unwrap();
            assert_eq!(bits(&out[..165]), bits(&whole[layer.clone()]));
            assert_eq!(out[165..], [77.0; 2]);
        }
    }
}

#[test]
fn a_layer_is_refused_in_order() {
    let good = boxed([0.0; 6]);
    let dims = [2, 3, 4];
    let ask = |file: &[u8], dims, z, length| {
        let mut layer = vec![-1.0; length];
        let answer = cut_fixtures_layer(file, dims, z, &mut layer);
        assert!(answer.is_ok() || layer.iter().all(|&distance| distance == -1.0));
        answer
    };
    assert_eq!(ask(&[], [2, 0, 4], 9, 5), Err(FixtureRefusal::Dimensions));
    assert_eq!(ask(&[], dims, 4, 5), Err(FixtureRefusal::Height));
    assert_eq!(ask(&[], dims, 3, 5), Err(FixtureRefusal::GridLength));
    assert_eq!(ask(&[], dims, 3, 6), Err(FixtureRefusal::Cut));
    assert_eq!(ask(&good, dims, 3, 6), Ok(()));
    assert_eq!(ask(&good, [1, 1, 16_777_217], 16_777_216, 1), Ok(()));
    assert_eq!(
        ask(&good, [1, 1, 16_777_217], 16_777_217, 1),
        Err(FixtureRefusal::Height)
    );
    let mut short = [5.0; 5];
    let none = cut_fixtures_layer_into(&[], &[0i16; 6], dims, 3, &mut short);
    assert_eq!(none, Err(FixtureRefusal::Cut));
    let none = cut_fixtures_layer_into(&good, &[0i16; 6], dims, 3, &mut short);
    assert_eq!((none, short), (Err(FixtureRefusal::Room), [5.0; 5]));
    assert_eq!(
        (
            FixtureRefusal::Height.number(),
            FixtureRefusal::Room.number()
        ),
        (81, 82)
    );
}
