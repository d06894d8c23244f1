//! JSON, written.

use std::fmt::{self, Write};

pub enum Json {
    Null,
    Yes(bool),
    Number(f64),
    Whole(i128),
    Text(String),
    List(Vec<Json>),
    Object(Vec<(&'static str, Json)>),
}

impl Json {
    pub fn object<const N: usize>(members: [(&'static str, Json); N]) -> Self {
        Json::Object(members.into())
    }

    pub fn list<T: Into<Json>>(members: impl IntoIterator<Item = T>) -> Self {
        Json::List(members.into_iter().map(Into::into).collect())
    }

    /// The members of an object, each on a line of its own.
    pub fn lines(&self) -> String {
        let Json::Object(members) = self else {
            return format!("{self}\n");
        };
        let members = members
            .iter()
            .map(|(name, value)| format!("{}: {value}", Json::from(*name)));
        format!("{{\n{}\n}}\n", members.collect::<Vec<_>>().join(",\n"))
    }
}

impl From<&str> for Json {
    fn from(text: &str) -> Self {
        Json::Text(text.into())
    }
}

impl From<String> for Json {
    fn from(text: String) -> Self {
        Json::Text(text)
    }
}

impl From<f64> for Json {
    fn from(number: f64) -> Self {
        Json::Number(number)
    }
}

impl From<bool> for Json {
    fn from(yes: bool) -> Self {
        Json::Yes(yes)
    }
}

macro_rules! whole {
    ($($kind:ty),*) => {$(
        impl From<$kind> for Json {
            fn from(number: $kind) -> Self {
                Json::Whole(number as i128)
            }
        }
    )*};
}

whole!(u8, u32, u64, i64, usize, i128);

impl<T: Into<Json>> From<Option<T>> for Json {
    fn from(some: Option<T>) -> Self {
        some.map_or(Json::Null, Into::into)
    }
}

impl fmt::Display for Json {
    fn fmt(&self, out: &mut fmt::Formatter) -> fmt::Result {
        match self {
            Json::Null => out.write_str("null"),
            Json::Yes(yes) => write!(out, "{yes}"),
            // There is no other number in JSON. Digits are those that are read back to the same number.
            Json::Number(number) if !number.is_finite() => out.write_str("null"),
            Json::Number(number) => write!(out, "{number:?}"),
            Json::Whole(number) => write!(out, "{number}"),
            Json::Text(text) => quoted(out, text),
            Json::List(members) => {
                out.write_char('[')?;
                for (place, member) in members.iter().enumerate() {
                    out.write_str(if place == 0 { "" } else { ", " })?;
                    write!(out, "{member}")?;
                }
                out.write_char(']')
            }
            Json::Object(members) => {
                out.write_char('{')?;
                for (place, (name, member)) in members.iter().enumerate() {
                    out.write_str(if place == 0 { "" } else { ", " })?;
                    quoted(out, name)?;
                    write!(out, ": {member}")?;
                }
                out.write_char('}')
            }
        }
    }
}

fn quoted(out: &mut fmt::Formatter, text: &str) -> fmt::Result {
    out.write_char('"')?;
    for letter in text.chars() {
        match letter {
            '"' => out.write_str("\\\"")?,
            '\\' => out.write_str("\\\\")?,
            '\n' => out.write_str("\\n")?,
            other if u32::from(other) < 0x20 || other == '\u{7f}' => {
                write!(out, "\\u{:04x}", u32::from(other))?
            }
            other => out.write_char(other)?,
        }
    }
    out.write_char('"')
}

#[cfg(test)]
mod tests {
    use super::*;

    #[test]
    fn every_kind() {
        let json = Json::object([
            ("a", Json::Null),
            ("b", true.into()),
            ("c", 0.1.into()),
            ("d", f64::NAN.into()),
            ("e", (-3i64).into()),
            ("f", "a \"name\" \\ of\na file\u{1}é".into()),
            ("g", Json::list([1.0, 1e300])),
            ("h", Json::object([])),
            ("i", None::<f64>.into()),
        ]);
        assert_eq!(
            json.to_string(),
            r#"{"a": null, "b": true, "c": 0.1, "d": null, "e": -3, "f": "a \"name\" \\ of\na file\u0001é", "g": [1.0, 1e300], "h": {}, "i": null}"#
        );
        assert!(json.lines().starts_with("{\n\"a\": null,\n\"b\": true,\n"));
    }
}
