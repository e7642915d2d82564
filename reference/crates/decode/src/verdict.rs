//! Refusals and measures.

use crate::number;

/// A refusal by number and place.
#[derive(Debug, Clone, Copy, PartialEq, Eq)]
pub struct Refusal {
    /// The number.
    pub number: u8,
    /// The place.
    pub place: u32,
}

impl Refusal {
    pub(crate) fn new(number: u8, place: usize) -> Self {
        let place = u32::try_from(place).expect("a place is at most 65,536");
        Self { number, place }
    }
}

/// The measures of a walk (terms of document 01).
#[derive(Debug, Clone, Copy, PartialEq, Eq, Default)]
pub struct Measures {
    /// Deepest: the largest depth that `indented` forms, written or not.
    pub deepest: u32,
    /// Letters: the count of all bytes written that belong to no indent.
    pub letters: u64,
    /// Units: the sum of the depths of all indents written.
    pub units: u64,
}

impl Measures {
    /// The length of the formatted text at a tab size.
    #[must_use]
    pub fn length(&self, tab_size: u32) -> u128 {
        u128::from(self.letters) + u128::from(tab_size) * u128::from(self.units)
    }

    /// Formatting's number for a sheet that the check accepts: 0, 7 or 8.
    #[must_use]
    pub fn bounds(&self, tab_size: u32, output: usize) -> u8 {
        if u64::from(self.deepest) * u64::from(tab_size) > u64::from(u32::MAX) {
            number::INDENT_TOO_WIDE
        } else if self.length(tab_size) > output as u128 {
            number::OUTPUT_TOO_SHORT
        } else {
            number::ACCEPTED
        }
    }
}

/// A lookup's number for a sheet that meets none of 1 to 4: 0 or 9.
#[must_use]
pub fn token_bound(token: u64, token_count: usize) -> u8 {
    if token < token_count as u64 {
        number::ACCEPTED
    } else {
        number::NO_TOKEN
    }
}
