//! Whether formatting changed anything but white space.

use crate::error::Error;
use crate::lex::{self, is_space};
use diverplume_record::SyntaxKind;
use std::collections::HashSet;
use std::ops::Range;

/// What a formatted text has otherwise than the text before.
#[derive(Debug, Clone, PartialEq, Eq)]
pub enum Change {
    /// Tokens other than white space and comments differ, here for the first time. A place behind
    /// the last token is empty.
    Token {
        /// In the text before.
        before: Range<usize>,
        /// In the text after.
        after: Range<usize>,
    },
    /// A comment's text is missing in the text after.
    Comment {
        /// In the text before.
        before: Range<usize>,
    },
}

/// Accepts exactly when the tokens other than white space and comments are equal in order, and the
/// trimmed text of every comment before occurs among those after.
///
/// # Errors
///
/// The first change; or, in the outer result, why one of the texts has no tokens.
pub fn judge(before: &[u8], after: &[u8]) -> Result<Result<(), Change>, Error> {
    let [ours, theirs] = [Parts::of(before)?, Parts::of(after)?];
    if let Some(at) = ours.first_difference(&theirs) {
        let (before, after) = (ours.word(at), theirs.word(at));
        return Ok(Err(Change::Token { before, after }));
    }
    let kept: HashSet<_> =
        theirs.comments.iter().map(|range| trimmed(&after[range.clone()])).collect();
    let lost =
        ours.comments.iter().find(|range| !kept.contains(trimmed(&before[(*range).clone()])));
    Ok(lost.map_or(Ok(()), |range| Err(Change::Comment { before: range.clone() })))
}

/// The tokens of a text other than white space.
struct Parts<'a> {
    text: &'a [u8],
    words: Vec<Range<usize>>,
    comments: Vec<Range<usize>>,
}

impl<'a> Parts<'a> {
    fn of(text: &'a [u8]) -> Result<Self, Error> {
        let tokens = lex::tokens(text).map_err(|broken| Error::of_tokens(text, broken))?;
        let mut parts = Self { text, words: Vec::new(), comments: Vec::new() };
        for token in tokens {
            if token.kind == SyntaxKind::BlockComment {
                parts.comments.push(token.range);
            } else if !is_space(text[token.range.start]) {
                parts.words.push(token.range);
            }
        }
        Ok(parts)
    }

    /// The place of a word; behind the last that of the text's end.
    fn word(&self, at: usize) -> Range<usize> {
        self.words.get(at).cloned().unwrap_or(self.text.len()..self.text.len())
    }

    fn first_difference(&self, other: &Parts<'_>) -> Option<usize> {
        let most = self.words.len().max(other.words.len());
        (0..most).find(|&at| {
            let is_there = at < self.words.len() && at < other.words.len();
            !is_there || self.text[self.word(at)] != other.text[other.word(at)]
        })
    }
}

/// A comment's text without white space at both ends.
fn trimmed(text: &[u8]) -> &str {
    std::str::from_utf8(text).expect("tokens end at characters").trim()
}
