//! Grids of whole numbers of 16 and 8 bits: the mesh, the refusals and the test for holes are those of the grid of
//! the floats of the same values.

use bed::{
    answer, counts, is_enclosed, surface_nets, surface_nets_lent, Counts, Distance, Lent,
    LentLengths, MaxPlane, Refusal, SurfaceNetsBuffer,
};

/// The call over one kind of number, as a value, so that a test is written once for both.
type Mesh<D> =
    fn(&[D], [u32; 3], [u32; 3], [u32; 3], MaxPlane, &mut SurfaceNetsBuffer) -> Result<(), Refusal>;

type Test<D> = fn(&[D], [u32; 3], [u32; 3], [u32; 3]) -> Result<bool, Refusal>;

type MeshLent<D> =
    fn(&[D], [u32; 3], [u32; 3], [u32; 3], MaxPlane, &mut Lent) -> Result<Counts, Refusal>;

/// Document 01's Ball with other numbers: 3, 3, 3, one below zero in the middle.
fn ball<D: Copy>(outside: D, inside: D) -> [D; 27] {
    let mut sdf = [outside; 27];
    sdf[13] = inside;
    sdf
}

fn floats<D: Copy + Into<f32>>(sdf: &[D]) -> Vec<f32> {
    sdf.iter().map(|&number| number.into()).collect()
}

/// Numbers of 64 bits from a fixed seed.
fn numbers() -> impl FnMut() -> u64 {
    let mut state = 0x0BED_5EED_0BED_5EEDu64;
    move || {
        state ^= state << 13;
        state ^= state >> 7;
        state ^= state << 17;
        state
    }
}

/// Equal to the last bit: a zero's sign counts.
fn same(one: &SurfaceNetsBuffer, other: &SurfaceNetsBuffer) -> bool {
    let bits = |list: &[[f32; 3]]| -> Vec<[u32; 3]> {
        list.iter()
            .map(|numbers| numbers.map(f32::to_bits))
            .collect()
    };
    bits(&one.positions) == bits(&other.positions)
        && bits(&one.normals) == bits(&other.normals)
        && one == other
}

/// One buffer on each side, used again for every grid, with any box and any max planes.
fn meshes_are_those_of_floats<D: Copy + Into<f32>>(mesh: Mesh<D>, number: fn(u64) -> D) {
    let mut random = numbers();
    let (mut whole, mut of_floats) = Default::default();
    let mut vertices = 0;
    for turn in 0..400 {
        let dims = [0; 3].map(|_| 3 + (random() % 4) as u32);
        let length = dims.iter().product::<u32>() as usize;
        let sdf: Vec<D> = (0..length).map(|_| number(random())).collect();
        let max = dims.map(|dim| dim - 1);
        let min = max.map(|last| (random() % u64::from(last)) as u32 * (turn % 2));
        let word = random();
        let [x, y, z] = [1, 2, 4].map(|bit| word & bit != 0);
        let flags = MaxPlane { x, y, z };
        mesh(&sdf, dims, min, max, flags, &mut whole).unwrap();
        surface_nets(&floats(&sdf), dims, min, max, flags, &mut of_floats).unwrap();
        assert!(same(&whole, &of_floats), "dimensions {dims:?}, min {min:?}");
        vertices += whole.positions.len();
    }
    assert!(vertices > 1_000);
}

#[test]
fn meshes_are_those_of_the_floats_of_the_same_values() {
    meshes_are_those_of_floats(surface_nets::<i16>, |word| (word >> 40) as i16);
    meshes_are_those_of_floats(surface_nets::<i16>, |word| (word >> 40) as i16 % 3);
    meshes_are_those_of_floats(surface_nets::<i8>, |word| (word >> 40) as i8);
    meshes_are_those_of_floats(surface_nets::<i8>, |word| (word >> 40) as i8 % 3);
}

/// Every number is a good distance: none is not finite, or too large.
#[test]
fn the_ends_of_the_ranges_are_accepted() {
    let mut buffer = SurfaceNetsBuffer::default();
    let (dims, min, max) = ([3; 3], [0; 3], [2; 3]);
    let longest = ball(i16::MAX, i16::MIN);
    surface_nets::<i16>(&longest, dims, min, max, MaxPlane::ALL, &mut buffer).unwrap();
    assert_eq!((buffer.positions.len(), buffer.indices.len()), (8, 36));
    let fraction = 32767.0 / 65535.0_f32;
    assert!(buffer.positions[0][0] > fraction && buffer.positions[0][0] < 1.0);
    let longest = ball(i8::MAX, i8::MIN);
    surface_nets::<i8>(&longest, dims, min, max, MaxPlane::ALL, &mut buffer).unwrap();
    assert_eq!((buffer.positions.len(), buffer.indices.len()), (8, 36));
}

/// The size of a number does not matter where all are of one size: Ball is document 01's.
#[test]
fn ball_is_document_01s() {
    let (dims, min, max) = ([3; 3], [0; 3], [2; 3]);
    let mut buffer = SurfaceNetsBuffer::default();
    let seen = |buffer: &SurfaceNetsBuffer| {
        assert_eq!(buffer.surface_strides, [0, 1, 3, 4, 9, 10, 12, 13]);
        assert_eq!(buffer.crossings, [3; 8]);
        let indices = [2, 1, 0, 2, 3, 1, 1, 4, 0, 1, 5, 4, 4, 2, 0, 4, 6, 2];
        assert_eq!(buffer.indices, indices);
        assert_eq!(buffer.positions[0].map(f32::to_bits), [0x3F555555; 3]);
    };
    surface_nets::<i16>(&ball(9, -9), dims, min, max, MaxPlane::NONE, &mut buffer).unwrap();
    seen(&buffer);
    surface_nets::<i8>(&ball(9, -9), dims, min, max, MaxPlane::NONE, &mut buffer).unwrap();
    seen(&buffer);
}

/// Why a call was refused; the buffer keeps what it held.
fn refused<D: Copy>(mesh: Mesh<D>, test: Test<D>, outside: D, inside: D) {
    let sdf = ball(outside, inside);
    let mut buffer = SurfaceNetsBuffer::default();
    mesh(&sdf, [3; 3], [0; 3], [2; 3], MaxPlane::NONE, &mut buffer).unwrap();
    let before = buffer.clone();
    let mut why = |sdf: &[D], dims, min, max| {
        let refusal = mesh(sdf, dims, min, max, MaxPlane::NONE, &mut buffer).unwrap_err();
        assert_eq!(buffer, before);
        assert_eq!(test(sdf, dims, min, max), Err(refusal));
        refusal
    };
    assert_eq!(why(&sdf, [0, 3, 3], [0; 3], [2; 3]), Refusal::Dimensions);
    assert_eq!(why(&sdf, [3; 3], [2, 0, 0], [1, 2, 2]), Refusal::Box);
    assert_eq!(why(&sdf, [3; 3], [0; 3], [3, 2, 2]), Refusal::Box);
    let shorter = &sdf[..26];
    assert_eq!(why(shorter, [3; 3], [0; 3], [2; 3]), Refusal::GridLength);
    let longer = [&sdf[..], &[outside]].concat();
    assert_eq!(why(&longer, [3; 3], [0; 3], [1; 3]), Refusal::GridLength);
}

#[test]
fn refusals_say_why() {
    refused(surface_nets::<i16>, is_enclosed::<i16>, 300, -300);
    refused(surface_nets::<i8>, is_enclosed::<i8>, 3, -3);
}

/// Lent lists about as long as Ball needs: refused with nothing written, or written in front and kept behind.
fn lent_about_right<D: Copy>(mesh: MeshLent<D>, outside: D, inside: D) {
    let needed = Counts {
        vertices: 8,
        indices: 18,
    };
    let called = |crossings: usize, map: usize, indices: usize| {
        let (mut positions, mut normals) = (vec![7.0; 25], vec![7.0; 25]);
        let mut words = [25, 9, map, indices].map(|length| vec![7; length]);
        let [cells, strides, stride_to_index, faces] = &mut words;
        let mut numbers = vec![7; crossings];
        let mut lent = Lent {
            positions: &mut positions,
            normals: &mut normals,
            cells,
            strides,
            crossings: &mut numbers,
            stride_to_index,
            indices: faces,
        };
        let sdf = ball(outside, inside);
        let answer = mesh(&sdf, [3; 3], [0; 3], [2; 3], MaxPlane::NONE, &mut lent);
        if answer.is_err() {
            assert!([&positions, &normals]
                .iter()
                .all(|list| **list == [7.0; 25]));
            assert!(words.iter().flatten().all(|&number| number == 7));
            assert!(numbers.iter().all(|&number| number == 7));
        }
        (answer, positions[24], words, numbers)
    };
    assert_eq!(called(8, 26, 18).0, Err(Refusal::MapShort));
    assert_eq!(called(7, 27, 17).0, Err(Refusal::VerticesShort(needed)));
    assert_eq!(called(8, 27, 17).0, Err(Refusal::IndicesShort(needed)));
    let (answer, behind, words, crossings) = called(9, 28, 19);
    assert_eq!((answer, behind), (Ok(needed), 7.0));
    assert_eq!([words[1][8], words[2][27], words[3][18]], [7; 3]);
    assert_eq!(crossings, [3, 3, 3, 3, 3, 3, 3, 3, 7]);
}

#[test]
fn lent_slices_are_refused_or_keep_their_rest() {
    lent_about_right(surface_nets_lent::<i16>, 9, -9);
    lent_about_right(surface_nets_lent::<i8>, 9, -9);
}

/// One point below zero, at each place in turn: of a cube of 4 only the one at 1, 1, 1 lies inside.
fn enclosed<D: Copy + Into<f32>>(test: Test<D>, outside: D, inside: D) {
    for place in 0..64 {
        let mut sdf = [outside; 64];
        sdf[place] = inside;
        assert_eq!(test(&sdf, [4; 3], [0; 3], [3; 3]), Ok(place == 21));
        for max in [[2, 3, 3], [3, 3, 0]] {
            let of_floats = is_enclosed(&floats(&sdf), [4; 3], [0; 3], max);
            assert_eq!(test(&sdf, [4; 3], [0; 3], max), of_floats);
        }
    }
}

#[test]
fn a_box_is_enclosed_if_its_margin_is_outside() {
    enclosed(is_enclosed::<i16>, 0, -1);
    enclosed(is_enclosed::<i16>, i16::MAX, i16::MIN);
    enclosed(is_enclosed::<i8>, 0, -1);
    enclosed(is_enclosed::<i8>, i8::MAX, i8::MIN);
}

/// Numbers with a point in them are f32 without a word, as in fast-surface-nets, which is generic too; where nothing tells the
/// kind it has to be named.
#[test]
fn numbers_with_a_point_are_floats() {
    let mut sdf = [1.0; 8];
    sdf[7] = -1.0;
    let mut buffer = SurfaceNetsBuffer::default();
    surface_nets(&sdf, [2; 3], [0; 3], [1; 3], MaxPlane::NONE, &mut buffer).unwrap();
    assert_eq!(buffer.positions.len(), 1);
    assert_eq!(
        is_enclosed::<f32>(&[], [0; 3], [0; 3], [0; 3]),
        Err(Refusal::Dimensions)
    );
}

/// One function for every kind: the answer and the counts are those of the floats.
fn told_as_of_floats<D: Distance + Copy + Into<f32>>(outside: D, inside: D) {
    let sdf = ball(outside, inside);
    let of_floats = floats(&sdf);
    let (dims, min, max) = ([3; 3], [0; 3], [2; 3]);
    let told = counts(&sdf, dims, min, max, MaxPlane::ALL).unwrap();
    assert_eq!((told.vertices, told.indices), (8, 36));
    let enough = LentLengths::exactly(told, 27);
    for short in [0, 1] {
        let lengths = LentLengths {
            indices: enough.indices - short,
            ..enough
        };
        let one = answer(&sdf, dims, min, max, MaxPlane::ALL, lengths);
        let other = answer(&of_floats, dims, min, max, MaxPlane::ALL, lengths);
        assert_eq!(one, other);
        assert_eq!(one.is_ok(), short == 0);
    }
}

#[test]
fn answers_are_told_as_of_floats() {
    told_as_of_floats(300i16, -300);
    told_as_of_floats(3i8, -3);
    told_as_of_floats(3.0f32, -3.0);
}
