//! Words of command lines and plans: numbers in digits, sizes, letters of axes.

use bed::MaxPlane;
use std::str::FromStr;

/// A number in digits alone.
pub fn number<N: FromStr>(word: &str) -> Option<N> {
    let digits = word.bytes().all(|byte| byte.is_ascii_digit());
    word.parse().ok().filter(|_| digits)
}

/// A number of bytes; K, M and G are 1,024 of the one before.
pub fn size(word: &str) -> Option<u128> {
    let (digits, unit) = match word.split_at_checked(word.len().checked_sub(1)?)? {
        (digits, "K") => (digits, 10),
        (digits, "M") => (digits, 20),
        (digits, "G") => (digits, 30),
        _ => (word, 0),
    };
    let count: u64 = number(digits)?;
    Some(u128::from(count) << unit)
}

/// The axes whose letters stand here, each at most once; `-` for none.
pub fn flags(letters: &str) -> Option<MaxPlane> {
    let mut flags = MaxPlane::NONE;
    if letters == "-" {
        return Some(flags);
    }
    for letter in letters.chars() {
        let flag = match letter {
            'x' => &mut flags.x,
            'y' => &mut flags.y,
            'z' => &mut flags.z,
            _ => return None,
        };
        if std::mem::replace(flag, true) {
            return None;
        }
    }
    Some(flags).filter(|_| !letters.is_empty())
}

/// The letters of these axes, which [`flags`] reads back.
pub fn letters(flags: MaxPlane) -> String {
    let named = [(flags.x, 'x'), (flags.y, 'y'), (flags.z, 'z')];
    let set: String = named
        .iter()
        .filter(|(flag, _)| *flag)
        .map(|(_, letter)| letter)
        .collect();
    if set.is_empty() {
        "-".into()
    } else {
        set
    }
}

#[cfg(test)]
mod tests {
    use super::*;

    #[test]
    fn sizes() {
        for (word, bytes) in [
            ("0", 0),
            ("17", 17),
            ("3K", 3 << 10),
            ("16M", 16 << 20),
            ("4G", 4 << 30),
            ("18446744073709551615G", u128::from(u64::MAX) << 30),
        ] {
            assert_eq!(size(word), Some(bytes), "{word}");
        }
        for word in [
            "",
            "K",
            "-1",
            "+1",
            "1.5G",
            "1 G",
            "1k",
            "1T",
            "1GG",
            "G1",
            "1é",
            "é",
            "18446744073709551616",
        ] {
            assert_eq!(size(word), None, "{word}");
        }
    }

    #[test]
    fn letters_are_read_back() {
        for word in ["-", "x", "y", "z", "xy", "xz", "yz", "xyz"] {
            assert_eq!(letters(flags(word).unwrap()), word);
        }
    }
}
