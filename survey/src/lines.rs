//! The lines of a page: what was found, with its name before it, and beneath it what it rests on. Proved: a theorem about the library says it. Counted: this
//! run counted it. Not claimed: nobody says it.

use crate::json::Json;

#[derive(Default)]
pub struct Lines(Vec<Line>);

struct Line {
    name: &'static str,
    words: String,
    rests: Vec<String>,
}

impl Lines {
    pub fn found(&mut self, name: &'static str, words: impl Into<String>) {
        self.0.push(Line {
            name,
            words: words.into(),
            rests: Vec::new(),
        });
    }

    pub fn rests(&mut self, words: impl Into<String>) {
        if let Some(line) = self.0.last_mut() {
            line.rests.push(words.into());
        }
    }

    pub fn text(&self) -> String {
        let mut text = String::new();
        for line in &self.0 {
            text += &format!("{}: {}\n", line.name, line.words);
            for rests in &line.rests {
                text += &format!("    {rests}\n");
            }
        }
        text
    }

    /// Each line with its claims, and of each claim its standing.
    pub fn json(&self) -> Json {
        let claim = |words: &String| {
            let (standing, rest) = standing(words);
            Json::object([("standing", standing.into()), ("words", rest.into())])
        };
        let line = |line: &Line| {
            Json::object([
                ("name", line.name.into()),
                ("found", line.words.as_str().into()),
                (
                    "rests_on",
                    Json::List(line.rests.iter().map(claim).collect()),
                ),
            ])
        };
        Json::List(self.0.iter().map(line).collect())
    }
}

/// What a claim's first words say of it.
fn standing(words: &str) -> (&'static str, &str) {
    let kinds = [
        ("proved: ", "proved"),
        ("counted: ", "counted"),
        ("compared: ", "counted"),
        ("not claimed: ", "not claimed"),
    ];
    for (before, standing) in kinds {
        if let Some(rest) = words.strip_prefix(before) {
            return (standing, rest);
        }
    }
    match words.starts_with("not proved: ") {
        true => ("not claimed", words),
        false => ("counted", words),
    }
}

#[cfg(test)]
mod tests {
    use super::*;

    #[test]
    fn text_and_standings() {
        let mut lines = Lines::default();
        lines.found("volume", "1 cubed step");
        lines.rests("proved: exact");
        lines.rests("not proved: the order");
        lines.found("file", "a \"b\"");
        assert_eq!(
            lines.text(),
            "volume: 1 cubed step\n    proved: exact\n    not proved: the order\nfile: a \"b\"\n"
        );
        let json = lines.json().to_string();
        assert!(
            json.contains(r#"{"standing": "proved", "words": "exact"}"#),
            "{json}"
        );
        assert!(json.contains(r#"{"standing": "not claimed", "words": "not proved: the order"}"#));
        assert!(json.contains(r#""found": "a \"b\"", "rests_on": []"#));
    }
}
