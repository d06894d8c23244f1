//! Links the proved library. Its folder is given by BED_LIB_DIR; without it, the folder is the one that
//! `scripts/linked-library` writes to at the top of this repository.
//!
//! Where no library is there that is said as a warning and nothing else is done here: `cargo doc` and `cargo check` link
//! nothing and work without one, and the linker then says that it is missing.

use std::path::PathBuf;
use std::{env, fs};

fn main() {
    println!("cargo:rerun-if-env-changed=BED_LIB_DIR");
    let folder = folder();
    let archive = folder.join("libbed.a");
    println!("cargo:rerun-if-changed={}", archive.display());
    if !archive.is_file() {
        println!(
            "cargo:warning={} is missing: run `scripts/linked-library` at the top of the repository, or set BED_LIB_DIR \
             to the folder that holds libbed.a",
            archive.display()
        );
    }
    println!("cargo:rustc-link-search=native={}", folder.display());
    println!("cargo:rustc-link-lib=static=bed");
    // which archive that is, for the build scripts of crates above
    println!("cargo:archive={}", archive.display());
}

fn folder() -> PathBuf {
    let given = env::var_os("BED_LIB_DIR").map(PathBuf::from);
    let folder = given.unwrap_or_else(|| {
        let here = env::var_os("CARGO_MANIFEST_DIR").expect("cargo sets CARGO_MANIFEST_DIR");
        PathBuf::from(here).join("../target/linked")
    });
    fs::canonicalize(&folder).unwrap_or(folder)
}
