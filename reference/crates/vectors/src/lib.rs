//! Vectors: calls on a fixed sample of sheets with the reference's answers, stored in a binary file
//! and a text index. `vectors/README.md` gives the format byte by byte.

mod call;
mod file;
mod sample;

pub use call::{Answer, Call, Vector, FILL};
pub use file::{bytes, index, parse, FormatError, Stored, BINARY, INDEX};
pub use sample::all;
