//! The tokens of a text.

use crate::calls::UNWRITTEN;
use crate::message::Cause;
use crate::verdict::{offset, Number};
use diverplume_record::{limit, SyntaxKind};
use std::iter::FusedIterator;
use std::ops::Range;
use std::slice::ChunksExact;

/// The length of a token's command.
const COMMAND: usize = 4;

// A slice is passed as its pointer and its length, an array as its pointer.
extern "C" {
    fn diverplume_scan(
        text: *const u8,
        text_length: usize,
        output: *mut u8,
        output_length: usize,
        answer: &mut [u64; 3],
    );
}

/// The tokens of a text. They are not empty and tile it; each is the longest at its place.
///
/// ```
/// use diverplume::record::SyntaxKind;
///
/// let text = b"val x=1 (* why *)";
/// let tokens = diverplume::scan(text)?;
/// let texts: Vec<_> = tokens.iter().map(|(_, range)| &text[range]).collect();
/// assert_eq!(texts, [&b"val"[..], b" ", b"x", b"=", b"1", b" ", b"(* why *)"]);
/// let comment = tokens.iter().find(|&(kind, _)| kind == SyntaxKind::BlockComment);
/// assert_eq!(comment, Some((SyntaxKind::BlockComment, 8..17)));
/// # Ok::<(), diverplume::Refusal>(())
/// ```
///
/// # Errors
///
/// Why the text has no tokens, or too many for a sheet.
pub fn scan(text: &[u8]) -> Result<Tokens, Refusal> {
    let mut commands = vec![0; longest_output(text)];
    let written = scan_into(text, &mut commands)?;
    commands.truncate(written);
    Ok(Tokens { commands })
}

/// Writes the tokens of a text at the output's start, as [`Tokens::commands`] has them, and gives the
/// count of bytes written. Nothing else of the output changes, and nothing where the text is refused.
///
/// # Errors
///
/// As [`scan`], and where the output is too short: four bytes for each token are needed.
pub fn scan_into(text: &[u8], output: &mut [u8]) -> Result<usize, Refusal> {
    let mut answer = [UNWRITTEN; 3];
    // SAFETY: each pointer comes from a slice of the length passed with it.
    unsafe {
        diverplume_scan(text.as_ptr(), text.len(), output.as_mut_ptr(), output.len(), &mut answer);
    }
    let [number, place, written] = answer;
    match Number::of(number) {
        Number::Accepted => Ok(offset(written)),
        number => {
            let place = offset(place);
            Err(Refusal { number, place, cause: Cause::of_scan(number, place, text, output.len()) })
        }
    }
}

/// The length of an output that the tokens of a text can't exceed.
pub(crate) fn longest_output(text: &[u8]) -> usize {
    COMMAND * text.len().min(limit::TOKENS)
}

/// The tokens of a text.
#[derive(Debug, Clone, PartialEq, Eq, Hash)]
pub struct Tokens {
    commands: Vec<u8>,
}

impl Tokens {
    /// The tokens as a record has them in front of its tree: `05`, kind, length (u16,
    /// little-endian).
    #[must_use]
    pub fn commands(&self) -> &[u8] {
        &self.commands
    }

    /// The count of tokens.
    #[must_use]
    pub fn len(&self) -> usize {
        self.commands.len() / COMMAND
    }

    /// Whether there are none; so it is for an empty text.
    #[must_use]
    pub fn is_empty(&self) -> bool {
        self.commands.is_empty()
    }

    /// The kind of each token and its range in the text, in order.
    #[must_use]
    pub fn iter(&self) -> TokenRanges<'_> {
        TokenRanges { commands: self.commands.chunks_exact(COMMAND), start: 0 }
    }
}

impl<'a> IntoIterator for &'a Tokens {
    type Item = (SyntaxKind, Range<usize>);
    type IntoIter = TokenRanges<'a>;

    fn into_iter(self) -> TokenRanges<'a> {
        self.iter()
    }
}

/// The kind of each of the [`Tokens`] and its range in the text, in order.
#[derive(Debug, Clone)]
pub struct TokenRanges<'a> {
    commands: ChunksExact<'a, u8>,
    /// Where the next token starts.
    start: usize,
}

impl Iterator for TokenRanges<'_> {
    type Item = (SyntaxKind, Range<usize>);

    fn next(&mut self) -> Option<Self::Item> {
        let &[_, kind, low, high] = self.commands.next()? else {
            return None;
        };
        let kind = SyntaxKind::of_number(kind).expect("a kind of the archive");
        let start = self.start;
        self.start += usize::from(u16::from_le_bytes([low, high]));
        Some((kind, start..self.start))
    }

    fn size_hint(&self) -> (usize, Option<usize>) {
        self.commands.size_hint()
    }
}

impl ExactSizeIterator for TokenRanges<'_> {}

impl FusedIterator for TokenRanges<'_> {}

/// Why a call gives nothing. As text it says what was refused, where and what to do.
#[derive(Debug, Clone, PartialEq, Eq)]
pub struct Refusal {
    /// The number.
    pub number: Number,
    /// The place: an offset in the text for [`Number::NotUtf8`], [`Number::OpenComment`],
    /// [`Number::NoString`] and [`Number::BeginsNoToken`], else 0.
    pub place: usize,
    pub(crate) cause: Cause,
}

impl std::error::Error for Refusal {}
