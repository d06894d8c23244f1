//! The version of the library that is linked.

use crate::raw::bed_version;

/// The version of the linked library: major, minor and patch. It is this crate's own where the two came together; another minor
/// version may take other arguments.
///
/// ```
/// assert_eq!(bed::version().map(|part| part.to_string()).join("."), env!("CARGO_PKG_VERSION"));
/// ```
pub fn version() -> [u32; 3] {
    // SAFETY: nothing is lent.
    let number = unsafe { bed_version() };
    [number >> 16, number >> 8 & 255, number & 255]
}
