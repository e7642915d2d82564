//! The input of the program `format_sheet`, also the format of a sheet's file.

use crate::limit;

/// What the program reads: a tab size and a sheet.
#[derive(Debug, Clone, Copy, PartialEq, Eq)]
pub struct Input<'a> {
    /// The tab size.
    pub tab_size: u32,
    /// The text.
    pub text: &'a [u8],
    /// The record.
    pub record: &'a [u8],
}

impl<'a> Input<'a> {
    /// Takes the input apart: tab size (u32), text length (u16), text, record. None where it is
    /// shorter than it says, or past the limits.
    #[must_use]
    pub fn parse(bytes: &'a [u8]) -> Option<Self> {
        let (tab_size, rest) = bytes.split_first_chunk()?;
        let (length, rest) = rest.split_first_chunk()?;
        let length = usize::from(u16::from_le_bytes(*length));
        let (text, record) = rest.split_at_checked(length)?;
        let within = text.len() <= limit::TEXT && record.len() <= limit::RECORD;
        within.then_some(Self { tab_size: u32::from_le_bytes(*tab_size), text, record })
    }

    /// The bytes that [`Self::parse`] takes apart; none where the text's length is no u16.
    #[must_use]
    pub fn to_bytes(&self) -> Option<Vec<u8>> {
        let length = u16::try_from(self.text.len()).ok()?;
        let mut bytes = self.tab_size.to_le_bytes().to_vec();
        bytes.extend(length.to_le_bytes());
        bytes.extend(self.text);
        bytes.extend(self.record);
        Some(bytes)
    }
}
