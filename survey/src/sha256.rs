//! SHA-256 (FIPS 180-4), of bytes that come in pieces: what a manifest knows files by.

use std::fmt;

/// The first 32 bits of the fractional parts of the cube roots of the first 64 primes (4.2.2).
const ROUNDS: [u32; 64] = [
    0x428a2f98, 0x71374491, 0xb5c0fbcf, 0xe9b5dba5, 0x3956c25b, 0x59f111f1, 0x923f82a4, 0xab1c5ed5,
    0xd807aa98, 0x12835b01, 0x243185be, 0x550c7dc3, 0x72be5d74, 0x80deb1fe, 0x9bdc06a7, 0xc19bf174,
    0xe49b69c1, 0xefbe4786, 0x0fc19dc6, 0x240ca1cc, 0x2de92c6f, 0x4a7484aa, 0x5cb0a9dc, 0x76f988da,
    0x983e5152, 0xa831c66d, 0xb00327c8, 0xbf597fc7, 0xc6e00bf3, 0xd5a79147, 0x06ca6351, 0x14292967,
    0x27b70a85, 0x2e1b2138, 0x4d2c6dfc, 0x53380d13, 0x650a7354, 0x766a0abb, 0x81c2c92e, 0x92722c85,
    0xa2bfe8a1, 0xa81a664b, 0xc24b8b70, 0xc76c51a3, 0xd192e819, 0xd6990624, 0xf40e3585, 0x106aa070,
    0x19a4c116, 0x1e376c08, 0x2748774c, 0x34b0bcb5, 0x391c0cb3, 0x4ed8aa4a, 0x5b9cca4f, 0x682e6ff3,
    0x748f82ee, 0x78a5636f, 0x84c87814, 0x8cc70208, 0x90befffa, 0xa4506ceb, 0xbef9a3f7, 0xc67178f2,
];

/// The same of the square roots of the first 8 primes (5.3.3).
const START: [u32; 8] = [
    0x6a09e667, 0xbb67ae85, 0x3c6ef372, 0xa54ff53a, 0x510e527f, 0x9b05688c, 0x1f83d9ab, 0x5be0cd19,
];

const BLOCK: usize = 64;

/// The digest of some bytes.
#[derive(Clone, Copy, Debug, PartialEq, Eq)]
pub struct Digest(pub [u8; 32]);

impl Digest {
    pub fn of(bytes: &[u8]) -> Self {
        let mut hash = Sha256::default();
        hash.add(bytes);
        hash.digest()
    }

    /// Of 64 digits, as it is displayed.
    pub fn read(word: &str) -> Option<Self> {
        let mut bytes = [0; 32];
        if word.len() != 64 || !word.bytes().all(|byte| byte.is_ascii_hexdigit()) {
            return None;
        }
        for (byte, place) in bytes.iter_mut().zip((0..64).step_by(2)) {
            *byte = u8::from_str_radix(&word[place..place + 2], 16).ok()?;
        }
        Some(Self(bytes))
    }
}

impl fmt::Display for Digest {
    fn fmt(&self, out: &mut fmt::Formatter) -> fmt::Result {
        self.0.iter().try_for_each(|byte| write!(out, "{byte:02x}"))
    }
}

/// The hash of the bytes so far.
#[derive(Clone)]
pub struct Sha256 {
    state: [u32; 8],
    /// The bytes that fill no block yet.
    open: [u8; BLOCK],
    length: u64,
}

impl Default for Sha256 {
    fn default() -> Self {
        Self {
            state: START,
            open: [0; BLOCK],
            length: 0,
        }
    }
}

impl Sha256 {
    pub fn add(&mut self, mut bytes: &[u8]) {
        let begun = (self.length % BLOCK as u64) as usize;
        self.length += bytes.len() as u64;
        if begun > 0 {
            let taken = bytes.len().min(BLOCK - begun);
            let (head, rest) = bytes.split_at(taken);
            self.open[begun..begun + taken].copy_from_slice(head);
            bytes = rest;
            if begun + taken < BLOCK {
                return;
            }
            let block = self.open;
            self.block(&block);
        }
        let mut blocks = bytes.chunks_exact(BLOCK);
        for block in &mut blocks {
            self.block(block);
        }
        let rest = blocks.remainder();
        self.open[..rest.len()].copy_from_slice(rest);
    }

    /// With the padding of 5.1.1: a bit, zeros, and the length in bits.
    pub fn digest(mut self) -> Digest {
        let bits = self.length * 8;
        let begun = (self.length % BLOCK as u64) as usize;
        let zeros = (BLOCK + 55 - begun) % BLOCK;
        let mut padding = vec![0x80];
        padding.resize(1 + zeros, 0);
        padding.extend(bits.to_be_bytes());
        self.add(&padding);
        let mut bytes = [0; 32];
        for (place, word) in self.state.iter().enumerate() {
            bytes[4 * place..4 * place + 4].copy_from_slice(&word.to_be_bytes());
        }
        Digest(bytes)
    }

    /// One block of 64 bytes (6.2.2).
    fn block(&mut self, block: &[u8]) {
        let mut words = [0u32; 64];
        for (word, four) in words.iter_mut().zip(block.chunks_exact(4)) {
            *word = u32::from_be_bytes([four[0], four[1], four[2], four[3]]);
        }
        for t in 16..64 {
            let (early, late) = (words[t - 15], words[t - 2]);
            let small = early.rotate_right(7) ^ early.rotate_right(18) ^ (early >> 3);
            let large = late.rotate_right(17) ^ late.rotate_right(19) ^ (late >> 10);
            words[t] = words[t - 16]
                .wrapping_add(small)
                .wrapping_add(words[t - 7])
                .wrapping_add(large);
        }
        let [mut a, mut b, mut c, mut d, mut e, mut f, mut g, mut h] = self.state;
        for (word, round) in words.iter().zip(ROUNDS) {
            let turned = e.rotate_right(6) ^ e.rotate_right(11) ^ e.rotate_right(25);
            let chosen = (e & f) ^ (!e & g);
            let one = h
                .wrapping_add(turned)
                .wrapping_add(chosen)
                .wrapping_add(round)
                .wrapping_add(*word);
            let turned = a.rotate_right(2) ^ a.rotate_right(13) ^ a.rotate_right(22);
            let most = (a & b) ^ (a & c) ^ (b & c);
            let other = turned.wrapping_add(most);
            (h, g, f, e) = (g, f, e, d.wrapping_add(one));
            (d, c, b, a) = (c, b, a, one.wrapping_add(other));
        }
        for (word, more) in self.state.iter_mut().zip([a, b, c, d, e, f, g, h]) {
            *word = word.wrapping_add(more);
        }
    }
}

#[cfg(test)]
mod tests {
    use super::*;

    /// The standard's examples, and its vector of a million letters.
    #[test]
    fn the_standard_s_vectors() {
        let long = "abcdefghbcdefghicdefghijdefghijkefghijklfghijklmghijklmnhijklmnoijklmnopjklmnopqklmnopqrlmnopqrsmnopqrstnopqrstu";
        for (text, digest) in [
            (
                "",
                "e3b0c44298fc1c149afbf4c8996fb92427ae41e4649b934ca495991b7852b855",
            ),
            (
                "abc",
                "ba7816bf8f01cfea414140de5dae2223b00361a396177a9cb410ff61f20015ad",
            ),
            (
                "abcdbcdecdefdefgefghfghighijhijkijkljklmklmnlmnomnopnopq",
                "248d6a61d20638b8e5c026930c3e6039a33ce45964ff2167f6ecedd419db06c1",
            ),
            (
                long,
                "cf5b16a778af8380036ce59e7b0492370b249b11e8f07a51afac45037afee9d1",
            ),
        ] {
            assert_eq!(Digest::of(text.as_bytes()).to_string(), digest, "{text}");
            assert_eq!(Digest::read(digest), Some(Digest::of(text.as_bytes())));
        }
        let million = Digest::of(&[b'a'; 1_000_000]).to_string();
        assert_eq!(
            million,
            "cdc76e5c9914fb9281a1c7e284d73e67f1809a48a497200e046d39ccc7112cd0"
        );
    }

    #[test]
    fn pieces_make_no_difference() {
        let bytes: Vec<u8> = (0..1000u32)
            .map(|number| (number * 7 % 251) as u8)
            .collect();
        for length in [0, 1, 55, 56, 57, 63, 64, 65, 119, 120, 127, 128, 129, 1000] {
            let whole = Digest::of(&bytes[..length]);
            for piece in [1, 3, 64, 65, 200] {
                let mut hash = Sha256::default();
                for part in bytes[..length].chunks(piece) {
                    hash.add(part);
                }
                assert_eq!(hash.digest(), whole, "{length} in pieces of {piece}");
            }
        }
    }

    #[test]
    fn what_is_no_digest() {
        for word in ["", "e3", &"g".repeat(64), &"é".repeat(32), &"0".repeat(65)] {
            assert_eq!(Digest::read(word), None, "{word}");
        }
    }
}
