//! One version wherever one stands: in the library, this crate, the C header, the Python module and its package, and the command.

use std::fs::read_to_string;
use std::path::Path;

/// The text between two marks in a file of the repository.
fn between(file: &str, before: &str, after: &str) -> String {
    let path = Path::new(env!("CARGO_MANIFEST_DIR")).join("..").join(file);
    let text = read_to_string(&path).unwrap_or_else(|error| panic!("{}: {error}", path.display()));
    let (_, rest) = text
        .split_once(before)
        .unwrap_or_else(|| panic!("{file} has no {before:?}"));
    rest.split_once(after).expect("the text ends").0.to_string()
}

#[test]
fn one_version_everywhere() {
    let library = bed::version().map(|part| part.to_string());
    assert_eq!(library.join("."), env!("CARGO_PKG_VERSION"));
    let text = [
        ("include/bed.h", "#define BED_VERSION \"", "\""),
        ("python/pyproject.toml", "\nversion = \"", "\""),
        ("python/bed.py", "\nVERSION = \"", "\""),
        ("survey/Cargo.toml", "\nversion = \"", "\""),
        ("oracle/Cargo.toml", "\nversion = \"", "\""),
        ("bench/Cargo.toml", "\nversion = \"", "\""),
    ];
    for (file, before, after) in text {
        assert_eq!(between(file, before, after), library.join("."), "{file}");
    }
    for (name, part) in ["MAJOR", "MINOR", "PATCH"].into_iter().zip(library) {
        let before = format!("#define BED_VERSION_{name} ");
        assert_eq!(between("include/bed.h", &before, "\n"), part, "{name}");
    }
}
