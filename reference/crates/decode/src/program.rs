//! The input and the output of the program `format_sheet`.

use crate::verdict::Measures;
pub use schema::Input;

/// The length of the program's output buffer.
pub const OUTPUT: usize = 65_536;

/// The line that the program prints, with its line feed.
#[must_use]
pub fn line(number: u8, place: u32, measures: Measures) -> String {
    let Measures { deepest, letters, units } = measures;
    format!("{number} {place} {deepest} {letters} {units}\n")
}
