//! Document 02, request 2, read once more, from its words alone: a file is bytes, a record is 32 of them.

/// The answers, as the request numbers them.
pub const CUT: u32 = 21;
pub const SUM: u32 = 22;
pub const KIND: u32 = 23;
pub const ZERO: u32 = 24;
pub const COUNTS: u32 = 25;
pub const INDEX: u32 = 26;
pub const FINITE: u32 = 27;
pub const AFTER: u32 = 28;
pub const ROOM: u32 = 29;
pub const LISTS: u32 = 30;

/// Flat lists, the floats by their bits.
#[derive(Clone, Debug, Default, PartialEq)]
pub struct Mesh {
    pub positions: Vec<u32>,
    pub normals: Vec<u32>,
    pub indices: Vec<u32>,
}

/// Seven words and their sum, little-endian.
pub fn record(words: [u32; 7]) -> Vec<u8> {
    let sum = words.iter().map(|&word| word as u64).sum::<u64>() as u32;
    words
        .iter()
        .chain([&sum])
        .flat_map(|word| word.to_le_bytes())
        .collect()
}

/// The words of whole records.
pub fn words(bytes: &[u8]) -> Vec<u32> {
    bytes
        .chunks_exact(4)
        .map(|word| u32::from_le_bytes([word[0], word[1], word[2], word[3]]))
        .collect()
}

fn finite(bits: u32) -> bool {
    f32::from_bits(bits).is_finite()
}

/// The writer: the file, or its answer.
pub fn write(mesh: &Mesh, room: usize) -> Result<Vec<u8>, u32> {
    let Mesh {
        positions,
        normals,
        indices,
    } = mesh;
    let threes = [positions.len(), normals.len(), indices.len()]
        .iter()
        .all(|length| length % 3 == 0);
    let (vertices, triangles) = (positions.len() as u64 / 3, indices.len() as u64 / 3);
    let counts_fit = vertices <= u32::MAX as u64 && triangles <= u32::MAX as u64;
    if !threes || normals.len() != positions.len() || !counts_fit {
        return Err(LISTS);
    }
    if indices.iter().any(|&index| index as u64 >= vertices) {
        return Err(INDEX);
    }
    if positions.iter().chain(normals).any(|&bits| !finite(bits)) {
        return Err(FINITE);
    }
    let mut file = Vec::new();
    for (p, n) in positions.chunks(3).zip(normals.chunks(3)) {
        file.extend(record([1, p[0], p[1], p[2], n[0], n[1], n[2]]));
    }
    for i in indices.chunks(3) {
        file.extend(record([2, i[0], i[1], i[2], 0, 0, 0]));
    }
    file.extend(record([3, vertices as u32, triangles as u32, 0, 0, 0, 0]));
    if room < file.len() {
        return Err(ROOM);
    }
    Ok(file)
}

/// The reader, room apart: the mesh, or its answer.
pub fn read(file: &[u8]) -> Result<Mesh, u32> {
    let mut mesh = Mesh::default();
    let mut rest = file;
    loop {
        if rest.len() < 32 {
            return Err(CUT);
        }
        let (this, after) = rest.split_at(32);
        let w = words(this);
        if let Some(lowest) = faults(&w, &mesh, !after.is_empty()).into_iter().min() {
            return Err(lowest);
        }
        match w[0] {
            1 => {
                mesh.positions.extend(&w[1..4]);
                mesh.normals.extend(&w[4..7]);
            }
            2 => mesh.indices.extend(&w[1..4]),
            _ => return Ok(mesh),
        }
        rest = after;
    }
}

/// All faults of one record, by its words, the mesh so far and whether bytes follow it.
fn faults(w: &[u32], mesh: &Mesh, more: bool) -> Vec<u32> {
    let vertices = mesh.positions.len() as u64 / 3;
    let triangles = mesh.indices.len() as u64 / 3;
    let sum = w[..7]
        .iter()
        .fold(0u32, |sum, &word| sum.wrapping_add(word));
    let not_zero = |words: &[u32]| words.iter().any(|&word| word != 0);
    let kind_faults = match w[0] {
        1 => vec![
            (KIND, triangles > 0),
            (FINITE, !w[1..7].iter().all(|&bits| finite(bits))),
        ],
        2 => vec![
            (ZERO, not_zero(&w[4..7])),
            (INDEX, w[1..4].iter().any(|&index| index as u64 >= vertices)),
        ],
        3 => vec![
            (ZERO, not_zero(&w[3..7])),
            (COUNTS, (w[1] as u64, w[2] as u64) != (vertices, triangles)),
            (AFTER, more),
        ],
        _ => vec![(KIND, true)],
    };
    [(SUM, sum != w[7])]
        .into_iter()
        .chain(kind_faults)
        .filter_map(|(number, holds)| holds.then_some(number))
        .collect()
}
