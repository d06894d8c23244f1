//! NumPy's .npy files: the header, read and written. Versions 1 to 3, C order, three dimensions, which stand there as z, y, x.

use crate::numbers::{Header, Numbers};
use crate::words::number;
use std::io::{self, Read};

const MAGIC: &[u8] = b"\x93NUMPY";

/// Reads the header and leaves the file at the first number.
pub fn read_header(file: &mut impl Read) -> Result<Header, String> {
    let mut start = [0; 8];
    fill(file, &mut start)?;
    if !start.starts_with(MAGIC) {
        return Err("is no .npy file; a raw one wants --dims".into());
    }
    let length = match start[6] {
        1 => {
            let mut bytes = [0; 2];
            fill(file, &mut bytes)?;
            u64::from(u16::from_le_bytes(bytes))
        }
        2 | 3 => {
            let mut bytes = [0; 4];
            fill(file, &mut bytes)?;
            u64::from(u32::from_le_bytes(bytes))
        }
        version => return Err(format!("has the unknown .npy version {version}")),
    };
    let mut text = Vec::new();
    file.take(length)
        .read_to_end(&mut text)
        .map_err(|error| error.to_string())?;
    if text.len() as u64 != length {
        return Err("is cut off in its header".into());
    }
    said_by(&String::from_utf8_lossy(&text))
}

fn fill(file: &mut impl Read, bytes: &mut [u8]) -> Result<(), String> {
    file.read_exact(bytes).map_err(|error| match error.kind() {
        io::ErrorKind::UnexpectedEof => "is cut off in its header".into(),
        _ => error.to_string(),
    })
}

fn said_by(text: &str) -> Result<Header, String> {
    let kind = value(text, "descr").and_then(|rest| between(rest, '\'', '\''));
    let numbers = match kind {
        Some("<f4") => Numbers::Float32,
        Some("<i2") => Numbers::Int16,
        Some("|i1" | "<i1") => Numbers::Int8,
        Some(other) => {
            let advice = match other
                .trim_start_matches(['<', '>', '=', '|'])
                .starts_with('f')
            {
                true => ": .astype('float32') makes it one of these",
                false => "",
            };
            return Err(format!(
                "holds {other}; float32, int16 and int8 are read, lowest byte first{advice}"
            ));
        }
        None => return Err("has a header without a plain kind of number".into()),
    };
    if !value(text, "fortran_order").is_some_and(|rest| rest.starts_with("False")) {
        return Err("is not in C order".into());
    }
    let shape = value(text, "shape").and_then(|rest| between(rest, '(', ')'));
    let sizes: Option<Vec<u32>> = shape
        .unwrap_or("")
        .split(',')
        .map(str::trim)
        .filter(|word| !word.is_empty())
        .map(number)
        .collect();
    match sizes.as_deref() {
        Some(&[z, y, x]) => Ok(Header {
            dims: [x, y, z],
            numbers,
        }),
        _ => Err("has not a shape of three dimensions z, y, x".into()),
    }
}

/// What follows a key of the header's dictionary.
fn value<'a>(text: &'a str, key: &str) -> Option<&'a str> {
    let (_, after) = text.split_once(&format!("'{key}':"))?;
    Some(after.trim_start())
}

fn between(text: &str, open: char, close: char) -> Option<&str> {
    text.strip_prefix(open)?
        .split_once(close)
        .map(|(inside, _)| inside)
}

/// The file of a grid of float32.
pub fn written(dims: [u32; 3], distances: &[f32]) -> Vec<u8> {
    let [x, y, z] = dims;
    with_shape(&format!("({z}, {y}, {x})"), distances)
}

/// The file of a layer of float32.
pub fn written_flat(dims: [u32; 2], numbers: &[f32]) -> Vec<u8> {
    let [x, y] = dims;
    with_shape(&format!("({y}, {x})"), numbers)
}

fn with_shape(shape: &str, distances: &[f32]) -> Vec<u8> {
    let mut header = format!("{{'descr': '<f4', 'fortran_order': False, 'shape': {shape}, }}");
    // The numbers begin at a multiple of 64 bytes; the header ends with a new line.
    while (MAGIC.len() + 4 + header.len() + 1) % 64 != 0 {
        header.push(' ');
    }
    header.push('\n');
    let mut file = MAGIC.to_vec();
    file.extend([1, 0]);
    file.extend((header.len() as u16).to_le_bytes());
    file.extend(header.bytes());
    file.extend(distances.iter().flat_map(|distance| distance.to_le_bytes()));
    file
}

#[cfg(test)]
mod tests {
    use super::*;

    #[test]
    fn what_was_written_is_read() {
        let file = written([2, 1, 3], &[0.5; 6]);
        let mut rest = &file[..];
        let header = read_header(&mut rest).unwrap();
        assert_eq!((header.dims, header.numbers), ([2, 1, 3], Numbers::Float32));
        assert_eq!((rest.len(), (file.len() - rest.len()) % 64), (24, 0));
    }

    #[test]
    fn other_headers_are_refused() {
        let said = |descr: &str, order: &str, shape: &str| {
            said_by(&format!(
                "{{'descr': {descr}, 'fortran_order': {order}, 'shape': {shape}, }}"
            ))
        };
        assert!(said("'<i2'", "False", "(1, 2, 3)").is_ok());
        assert!(said("'|i1'", "False", "(1, 2, 3)").is_ok());
        assert!(said("'>f4'", "False", "(1, 2, 3)").is_err());
        let float64 = said("'<f8'", "False", "(1, 2, 3)").unwrap_err();
        assert!(float64.contains(".astype('float32')"), "{float64}");
        let unsigned = said("'<u2'", "False", "(1, 2, 3)").unwrap_err();
        assert!(!unsigned.contains("astype"), "{unsigned}");
        assert!(said("[('a', '<f4')]", "False", "(1, 2, 3)").is_err());
        assert!(said("'<f4'", "True", "(1, 2, 3)").is_err());
        assert!(said("'<f4'", "False", "(1, 2)").is_err());
        assert!(said("'<f4'", "False", "(1, 2, 3, 4)").is_err());
        assert!(said("'<f4'", "False", "(1, 2, 99999999999)").is_err());
    }
}
