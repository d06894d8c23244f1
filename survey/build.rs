//! Keeps the SHA-256 of the archive that the command is linked with, so that a survey can name what worked it out. Empty where
//! there is no archive, as for `cargo check`.

#[allow(dead_code)]
#[path = "src/sha256.rs"]
mod sha256;

use std::path::PathBuf;
use std::{env, fs};

fn main() {
    let archive = PathBuf::from(env::var_os("DEP_BED_ARCHIVE").unwrap_or_default());
    println!("cargo:rerun-if-changed={}", archive.display());
    let digest = fs::read(&archive).map(|bytes| sha256::Digest::of(&bytes).to_string());
    println!(
        "cargo:rustc-env=BED_ARCHIVE_SHA256={}",
        digest.unwrap_or_default()
    );
}
