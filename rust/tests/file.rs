//! Mesh files through the wrapper: Ball there and back, cut at every length, and a refusal of each kind.

use bed::{
    check_mesh, file_len, read_mesh, surface_nets, write_mesh, write_record, FileCounts,
    FileRefusal, MaxPlane, SurfaceNetsBuffer,
};

/// Document 01's Ball, meshed: 8 vertices, 6 triangles.
fn ball() -> SurfaceNetsBuffer {
    let mut sdf = [1.0; 27];
    sdf[13] = -1.0;
    let mut buffer = SurfaceNetsBuffer::default();
    surface_nets(&sdf, [3; 3], [0; 3], [2; 3], MaxPlane::NONE, &mut buffer).unwrap();
    buffer
}

fn file_of(mesh: &SurfaceNetsBuffer) -> Vec<u8> {
    let mut file = vec![0; file_len(mesh.positions.len(), mesh.indices.len() / 3)];
    let written = write_mesh(
        mesh.positions.as_flattened(),
        mesh.normals.as_flattened(),
        &mesh.indices,
        &mut file,
    );
    assert_eq!(written, Ok(file.len() as u64));
    file
}

/// The refusal of a file where there is room enough, and that nothing was written.
fn refusal(file: &[u8]) -> FileRefusal {
    let (mut positions, mut normals, mut indices) = ([7.0; 99], [7.0; 99], [7; 99]);
    let refused = read_mesh(file, &mut positions, &mut normals, &mut indices).unwrap_err();
    assert_eq!(
        (positions, normals, indices),
        ([7.0; 99], [7.0; 99], [7; 99])
    );
    assert_eq!(check_mesh(file), Err(refused));
    refused
}

fn bits(floats: &[f32]) -> Vec<u32> {
    floats.iter().map(|float| float.to_bits()).collect()
}

/// Seven words and their sum.
fn record(words: [u32; 7]) -> Vec<u8> {
    let sum = words
        .iter()
        .fold(0, |sum: u32, word| sum.wrapping_add(*word));
    words
        .iter()
        .chain([&sum])
        .flat_map(|word| word.to_le_bytes())
        .collect()
}

#[test]
fn ball_comes_back_with_the_same_bits() {
    let mesh = ball();
    let file = file_of(&mesh);
    assert_eq!(file.len(), 480);
    let (mut positions, mut normals, mut indices) = ([7.0; 25], [7.0; 25], [7; 19]);
    let counts = read_mesh(&file, &mut positions, &mut normals, &mut indices);
    assert_eq!(
        counts,
        Ok(FileCounts {
            vertices: 8,
            triangles: 6
        })
    );
    assert_eq!(check_mesh(&file), counts);
    assert_eq!(bits(&positions[..24]), bits(mesh.positions.as_flattened()));
    assert_eq!(bits(&normals[..24]), bits(mesh.normals.as_flattened()));
    assert_eq!(indices[..18], mesh.indices);
    assert_eq!((positions[24], normals[24], indices[18]), (7.0, 7.0, 7));
}

#[test]
fn a_file_is_the_records_of_request_2() {
    let mut file = [7; 100];
    let written = write_mesh(&[1.0, 2.0, -0.0], &[0.5, 0.0, 4.0], &[0, 0, 0], &mut file);
    assert_eq!(written, Ok(96));
    let vertex = [1.0f32, 2.0, -0.0, 0.5, 0.0, 4.0].map(f32::to_bits);
    let [a, b, c, d, e, f] = vertex;
    assert_eq!(file[..32], record([1, a, b, c, d, e, f]));
    assert_eq!(file[32..64], record([2, 0, 0, 0, 0, 0, 0]));
    assert_eq!(file[64..96], record([3, 1, 1, 0, 0, 0, 0]));
    assert_eq!(file[96..], [7; 4]);
}

/// The seven words of each record: vertices, triangles, the closing one.
fn words_of(mesh: &SurfaceNetsBuffer) -> Vec<[u32; 7]> {
    let vertices = mesh.positions.iter().zip(&mesh.normals).map(|(p, n)| {
        let ([a, b, c], [d, e, f]) = (p.map(f32::to_bits), n.map(f32::to_bits));
        [1, a, b, c, d, e, f]
    });
    let triangles = mesh
        .indices
        .chunks_exact(3)
        .map(|t| [2, t[0], t[1], t[2], 0, 0, 0]);
    let counts = [mesh.positions.len(), mesh.indices.len() / 3].map(|count| count as u32);
    let closing = [3, counts[0], counts[1], 0, 0, 0, 0];
    vertices.chain(triangles).chain([closing]).collect()
}

#[test]
fn single_records_make_the_file() {
    let mesh = ball();
    let file = file_of(&mesh);
    let mut apart = Vec::new();
    let mut in_a_row = vec![7; file.len() + 5];
    for (number, words) in words_of(&mesh).into_iter().enumerate() {
        let mut piece = [7; 32];
        assert_eq!(write_record(&mut piece, 0, words), Ok(()));
        apart.extend(piece);
        assert_eq!(
            write_record(&mut in_a_row, 32 * number as u64, words),
            Ok(())
        );
    }
    assert_eq!(apart, file);
    assert_eq!(in_a_row[..file.len()], file);
    assert_eq!(in_a_row[file.len()..], [7; 5]);
}

#[test]
fn a_record_past_the_room_is_refused() {
    let words = [1, 2, 3, 4, 5, 6, u32::MAX];
    for (length, at, room) in [
        (32, 0, true),
        (31, 0, false),
        (0, 0, false),
        (32, 1, false),
        (40, 8, true),
        (40, 9, false),
        (40, 41, false),
        (40, u64::MAX - 31, false),
        (40, u64::MAX, false),
    ] {
        let mut file = vec![7; length];
        let written = write_record(&mut file, at, words);
        if room {
            let at = at as usize;
            assert_eq!(written, Ok(()));
            assert_eq!(file[at..at + 32], record(words));
            file[at..at + 32].fill(7);
        } else {
            assert_eq!(written, Err(FileRefusal::Room));
        }
        assert_eq!(file, vec![7; length], "all others are kept");
    }
}

#[test]
fn every_shorter_beginning_is_refused() {
    let file = file_of(&ball());
    for length in 0..file.len() {
        assert_eq!(refusal(&file[..length]), FileRefusal::Cut, "{length} bytes");
    }
}

#[test]
fn an_empty_file_is_refused_with_21() {
    assert_eq!(refusal(&[]).number(), 21);
}

#[test]
fn each_fault_has_its_refusal() {
    let file = file_of(&ball());
    let with = |at: usize, words| [&file[..at], &record(words), &file[at + 32..]].concat();
    let mut flipped = file.clone();
    flipped[40] ^= 1;
    let infinity = f32::INFINITY.to_bits();
    for (broken, reason) in [
        (flipped, FileRefusal::Sum),
        (with(0, [4, 0, 0, 0, 0, 0, 0]), FileRefusal::Kind),
        (with(288, [1, 0, 0, 0, 0, 0, 0]), FileRefusal::Kind),
        (with(256, [2, 0, 1, 2, 0, 0, 5]), FileRefusal::Zero),
        (with(448, [3, 8, 7, 0, 0, 0, 0]), FileRefusal::Counts),
        (with(256, [2, 0, 1, 8, 0, 0, 0]), FileRefusal::Index),
        (
            with(0, [1, 0, infinity, 0, 0, 0, 0]),
            FileRefusal::NotFinite,
        ),
        ([&file[..], &[0]].concat(), FileRefusal::After),
    ] {
        assert_eq!(refusal(&broken), reason);
    }
}

#[test]
fn short_room_is_refused_last() {
    let file = file_of(&ball());
    let read = |p: usize, n: usize, i: usize| {
        read_mesh(&file, &mut vec![0.0; p], &mut vec![0.0; n], &mut vec![0; i]).err()
    };
    assert_eq!(read(24, 24, 18), None);
    assert_eq!(read(23, 24, 18), Some(FileRefusal::Room));
    assert_eq!(read(24, 23, 18), Some(FileRefusal::Room));
    assert_eq!(read(24, 24, 17), Some(FileRefusal::Room));
}

#[test]
fn the_writer_refuses_in_its_order() {
    let write = |positions: &[f32], normals: &[f32], indices: &[u32], room: usize| {
        let mut file = vec![7; room];
        let refused = write_mesh(positions, normals, indices, &mut file).unwrap_err();
        assert_eq!(file, vec![7; room]);
        refused
    };
    let (zero, nan) = ([0.0; 3], [f32::NAN; 3]);
    assert_eq!(write(&[0.0; 4], &[0.0; 4], &[9; 3], 0), FileRefusal::Lists);
    assert_eq!(write(&zero, &[0.0; 6], &[9; 3], 0), FileRefusal::Lists);
    assert_eq!(write(&nan, &nan, &[0, 0, 1], 0), FileRefusal::Index);
    assert_eq!(write(&zero, &nan, &[0; 3], 0), FileRefusal::NotFinite);
    assert_eq!(write(&zero, &zero, &[0; 3], 95), FileRefusal::Room);
}

#[test]
fn a_refusal_says_its_reason() {
    let error: Box<dyn std::error::Error> = Box::new(FileRefusal::Cut);
    assert_eq!(
        error.to_string(),
        "the file is cut off before the end of its closing record"
    );
}
