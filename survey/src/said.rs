//! What a command prints, and the status that it ends with.

/// No volume is told.
pub const NO_VOLUME: u8 = 3;
/// A volume that the distances contradict.
pub const WRONG: u8 = 4;

pub struct Said {
    pub text: String,
    pub status: u8,
}

impl From<String> for Said {
    fn from(text: String) -> Self {
        Self { text, status: 0 }
    }
}
