//! Places in a text.

use std::fmt;

/// A line and a column, both from 1; columns count characters.
#[derive(Debug, Clone, Copy, PartialEq, Eq)]
pub struct Position {
    /// The line.
    pub line: usize,
    /// The column.
    pub column: usize,
}

impl Position {
    /// The position of an offset; one past the text's end is its end.
    #[must_use]
    pub fn of(text: &[u8], offset: usize) -> Self {
        let mut lines = text[..offset.min(text.len())].split(|&byte| byte == b'\n');
        let last = lines.next_back().unwrap_or_default();
        let column = last.iter().filter(|&&byte| byte & 0xC0 != 0x80).count() + 1;
        Self { line: lines.count() + 1, column }
    }
}

impl fmt::Display for Position {
    fn fmt(&self, f: &mut fmt::Formatter<'_>) -> fmt::Result {
        write!(f, "line {}, column {}", self.line, self.column)
    }
}
