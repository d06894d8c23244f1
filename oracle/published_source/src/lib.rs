//! The published src/lib.rs of fast-surface-nets 0.2.1: where it lies and whether it is that file.
//!
//! The file is no part of this repository. Whoever builds the oracle gives its path in the variable
//! FAST_SURFACE_NETS_SRC; a file with another digest is refused, so that every answer of the oracle is
//! an answer of the published text. The two packages that compile it call `write_module` from their
//! build scripts: the compiler then reads the given file in place, not a copy.

mod sha256;

use std::path::{Path, PathBuf};
use std::{env, fs};

/// The variable that holds the path.
pub const VARIABLE: &str = "FAST_SURFACE_NETS_SRC";

/// The SHA-256 of the published file.
pub const DIGEST: &str = "bab9ea602fa45e91bed3b23ba25562123e37f70434b052f77edf5a18c9ec02ac";

/// For a build script: writes a module declaration that names the given file to OUT_DIR/published.rs.
/// Stops the build with a message where the file is missing or is another.
pub fn write_module() {
    println!("cargo:rerun-if-env-changed={VARIABLE}");
    let path = located().unwrap_or_else(|message| {
        eprintln!("{message}");
        std::process::exit(1);
    });
    println!("cargo:rerun-if-changed={}", path.display());
    let module = format!(
        "#[path = {:?}]\nmod published;\n",
        path.display().to_string()
    );
    let out = env::var_os("OUT_DIR").expect("cargo sets OUT_DIR for a build script");
    fs::write(Path::new(&out).join("published.rs"), module).expect("OUT_DIR can be written");
}

fn located() -> Result<PathBuf, String> {
    let given = env::var(VARIABLE).map_err(|_| {
        format!(
            "{VARIABLE} is not set: give the path of the published src/lib.rs of fast-surface-nets \
             0.2.1 (SHA-256 {DIGEST}); it is not kept in this repository"
        )
    })?;
    let path = fs::canonicalize(&given)
        .map_err(|error| format!("{VARIABLE} names {given}, which cannot be found: {error}"))?;
    let bytes = fs::read(&path)
        .map_err(|error| format!("{VARIABLE} names {given}, which cannot be read: {error}"))?;
    let digest = sha256::hex(&bytes);
    if digest == DIGEST {
        Ok(path)
    } else {
        Err(format!(
            "{VARIABLE} names {given}, which is not the published src/lib.rs of fast-surface-nets \
             0.2.1: its SHA-256 is {digest}, wanted is {DIGEST}"
        ))
    }
}
