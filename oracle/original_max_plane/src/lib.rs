//! The published src/lib.rs of fast-surface-nets 0.2.1, with the feature eval-max-plane.
//!
//! The file is compiled where it lies, unchanged; only the two crates that it stands on are stand-ins.

include!(concat!(env!("OUT_DIR"), "/published.rs"));

pub use published::*;
