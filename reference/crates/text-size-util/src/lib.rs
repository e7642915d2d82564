//! Stand-in for the text range that 000 uses.

/// A range of byte offsets in the text.
#[derive(Debug, Clone, Copy, PartialEq, Eq, PartialOrd, Ord, Hash)]
pub struct TextRange {
    start: u32,
    end: u32,
}

impl TextRange {
    /// The range from `start` up to, not including, `end`.
    #[must_use]
    #[inline]
    pub fn new(start: u32, end: u32) -> Self {
        Self { start, end }
    }

    /// The offset of the first byte.
    #[must_use]
    #[inline]
    pub fn start(self) -> u32 {
        self.start
    }

    /// The offset behind the last byte.
    #[must_use]
    #[inline]
    pub fn end(self) -> u32 {
        self.end
    }
}
