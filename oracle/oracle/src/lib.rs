//! The oracle: what a call of the bed mesher must answer and leave behind.
//!
//! `published` runs the published Rust, which decides every accepted call with all max planes or none.
//! `model` and `faces` decide what the Rust has no word for: the refusals and their counts, written from
//! document 01's table, and the index list for one or two max planes (document 02, request 4). `expected`
//! joins the two into the contents of all six lent buffers after the call. `enclosed` models document
//! 02's request 8: when the mesh has no hole. `stored` is the form in
//! which such answers are kept in a file, and `cases` the calls that are kept. `differences` shows the
//! inputs on which the Rust and document 01 part.

pub mod call;
pub mod cases;
pub mod differences;
pub mod enclosed;
pub mod expected;
pub mod faces;
pub mod model;
pub mod published;
pub mod stored;
