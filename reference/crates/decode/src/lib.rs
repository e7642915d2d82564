//! A decoder of the record, written from document 01, and the arithmetic of the verdicts.
//!
//! [`decode`] tells numbers 1 to 4 with their places on any bytes, else it gives the tree.
//! [`Measures::bounds`] and [`token_bound`] decide numbers 7 to 9. [`program`] reads the input of
//! the program `format_sheet` and writes the line that it prints.

pub mod program;
mod record;
mod verdict;

pub use record::decode;
pub use verdict::{token_bound, Measures, Refusal};

/// The numbers of the verdicts.
pub mod number {
    /// Accepted.
    pub const ACCEPTED: u8 = 0;
    /// Text or record too long.
    pub const TOO_LONG: u8 = 1;
    /// Text that is not well-formed UTF-8.
    pub const NOT_UTF8: u8 = 2;
    /// Record malformed.
    pub const MALFORMED: u8 = 3;
    /// The 201st form inside.
    pub const TOO_DEEP: u8 = 4;
    /// Comments left.
    pub const COMMENTS_LEFT: u8 = 6;
    /// Deepest × tab size over 4,294,967,295.
    pub const INDENT_TOO_WIDE: u8 = 7;
    /// Output too short.
    pub const OUTPUT_TOO_SHORT: u8 = 8;
    /// Lookup of a token number not below the count.
    pub const NO_TOKEN: u8 = 9;
    /// A comment without an end.
    pub const OPEN_COMMENT: u8 = 10;
    /// A double quote that begins no string constant.
    pub const NO_STRING: u8 = 11;
    /// Another byte that begins no token.
    pub const BEGINS_NO_TOKEN: u8 = 12;
    /// A part that formatting needs is absent. Against the Rust it is `Error::Syntax`.
    pub const MISSING: u8 = 13;
    /// An import. Against the Rust it is `Error::Syntax`.
    pub const IMPORT: u8 = 14;
}
