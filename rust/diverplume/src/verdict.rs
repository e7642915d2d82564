//! Verdicts and answers of lookups.

use crate::message::Cause;
use diverplume_record::Stop;
use std::fmt;

/// Number, place, three measures, and the words of the set.
pub(crate) const NUMBERS: usize = 5 + WORDS;

const WORDS: usize = 64;

/// What stands in a lookup's answer for none.
const NONE: u64 = u64::MAX;

/// The number of a verdict. No call gives 5.
#[derive(Debug, Clone, Copy, PartialEq, Eq, Hash)]
#[repr(u8)]
pub enum Number {
    /// Accepted.
    Accepted = 0,
    /// The text or the record is too long.
    TooLong = 1,
    /// The text is not well-formed UTF-8.
    NotUtf8 = 2,
    /// The record is malformed.
    Malformed = 3,
    /// The record has too many forms inside one another.
    TooDeep = 4,
    /// Comments are left over.
    CommentsLeft = 6,
    /// An indent is wider than 4,294,967,295 spaces.
    IndentTooWide = 7,
    /// The output is too short.
    OutputTooShort = 8,
    /// A lookup of a token that the sheet doesn't have.
    NoToken = 9,
    /// The text has a comment without an end.
    OpenComment = 10,
    /// The text has a double quote that begins no string constant.
    NoString = 11,
    /// The text has another byte that begins no token.
    BeginsNoToken = 12,
    /// A part that formatting needs is missing.
    Missing = 13,
    /// There is an import, which is not formatted.
    Import = 14,
}

impl Number {
    const ALL: [Self; 14] = [
        Self::Accepted,
        Self::TooLong,
        Self::NotUtf8,
        Self::Malformed,
        Self::TooDeep,
        Self::CommentsLeft,
        Self::IndentTooWide,
        Self::OutputTooShort,
        Self::NoToken,
        Self::OpenComment,
        Self::NoString,
        Self::BeginsNoToken,
        Self::Missing,
        Self::Import,
    ];

    pub(crate) fn of(number: u64) -> Self {
        let known = Self::ALL.into_iter().find(|&known| known as u64 == number);
        known.unwrap_or_else(|| {
            panic!("the archive gave the number {number}; build it and this crate from one source")
        })
    }
}

/// The measures of an accepted sheet.
#[derive(Debug, Clone, Copy, PartialEq, Eq, Hash, Default)]
pub struct Measures {
    /// The deepest indent formed, written or not.
    pub deepest: u64,
    /// The bytes written other than indents.
    pub letters: u64,
    /// The sum of the depths of all indents written.
    pub units: u64,
}

impl Measures {
    /// The length of the formatted text at a tab size.
    #[must_use]
    pub fn length(&self, tab_size: u32) -> u128 {
        u128::from(self.letters) + u128::from(tab_size) * u128::from(self.units)
    }

    /// The length of an output that formatting at this tab size needs; none where no output is long
    /// enough, because an indent is too wide or the text is longer than memory.
    pub(crate) fn output_length(&self, tab_size: u32) -> Option<usize> {
        let widest = u128::from(self.deepest) * u128::from(tab_size);
        let length = usize::try_from(self.length(tab_size)).ok()?;
        (widest <= u128::from(u32::MAX)).then_some(length)
    }
}

/// A set of tokens of a sheet: bit b of word w is token 64 × w + b.
#[derive(Clone, Copy, PartialEq, Eq, Hash)]
pub struct CommentSet([u64; WORDS]);

impl CommentSet {
    /// The words.
    #[must_use]
    pub fn words(&self) -> &[u64; WORDS] {
        &self.0
    }

    /// The count of tokens.
    #[must_use]
    pub fn len(&self) -> usize {
        self.0.iter().map(|word| word.count_ones() as usize).sum()
    }

    /// Whether there are none.
    #[must_use]
    pub fn is_empty(&self) -> bool {
        self.0.iter().all(|&word| word == 0)
    }

    /// Whether the token is in the set.
    #[must_use]
    pub fn contains(&self, token: usize) -> bool {
        self.0.get(token / 64).is_some_and(|word| word >> (token % 64) & 1 == 1)
    }

    /// The token numbers in order.
    #[must_use]
    pub fn iter(&self) -> Comments<'_> {
        Comments { words: &self.0, at: 0, left: self.0[0] }
    }
}

impl<'a> IntoIterator for &'a CommentSet {
    type Item = usize;
    type IntoIter = Comments<'a>;

    fn into_iter(self) -> Comments<'a> {
        self.iter()
    }
}

impl fmt::Debug for CommentSet {
    fn fmt(&self, f: &mut fmt::Formatter<'_>) -> fmt::Result {
        f.debug_set().entries(self).finish()
    }
}

/// The token numbers of a [`CommentSet`] in order.
#[derive(Debug, Clone)]
pub struct Comments<'a> {
    words: &'a [u64; WORDS],
    /// The number of the word that is being read.
    at: usize,
    /// What is left of it.
    left: u64,
}

impl Iterator for Comments<'_> {
    type Item = usize;

    fn next(&mut self) -> Option<usize> {
        while self.left == 0 {
            self.at += 1;
            self.left = *self.words.get(self.at)?;
        }
        let bit = self.left.trailing_zeros() as usize;
        self.left &= self.left - 1;
        Some(64 * self.at + bit)
    }
}

/// A verdict: what the check or formatting says of a sheet. As text it says what was refused, where
/// and what to do.
#[derive(Debug, Clone, PartialEq, Eq)]
pub struct Verdict {
    /// The number.
    pub number: Number,
    /// The place: an offset in the text for [`Number::NotUtf8`] and [`Number::CommentsLeft`], in
    /// the record for [`Number::Malformed`], [`Number::TooDeep`], [`Number::Missing`] and
    /// [`Number::Import`], else 0.
    pub place: usize,
    /// The measures; 0 where the sheet itself is refused.
    pub measures: Measures,
    /// The comments left, by token number; empty for a number other than
    /// [`Number::CommentsLeft`].
    pub comments: CommentSet,
    pub(crate) cause: Cause,
}

impl Verdict {
    /// The verdict of these numbers; `cause` gives what a message needs beyond them.
    pub(crate) fn new(
        numbers: &[u64; NUMBERS],
        cause: impl FnOnce(Number, usize) -> Cause,
    ) -> Self {
        let [number, place, deepest, letters, units, words @ ..] = *numbers;
        let (number, place) = (Number::of(number), offset(place));
        Self {
            number,
            place,
            measures: Measures { deepest, letters, units },
            comments: CommentSet(words),
            cause: cause(number, place),
        }
    }

    /// Whether the sheet is accepted.
    #[must_use]
    pub fn is_accepted(&self) -> bool {
        self.number == Number::Accepted
    }

    /// For [`Number::Missing`] and [`Number::Import`] the part of the record at the place.
    #[must_use]
    pub fn stop(&self) -> Option<&Stop> {
        match &self.cause {
            Cause::Stop(stop) => Some(stop),
            _ => None,
        }
    }
}

impl std::error::Error for Verdict {}

/// The answer of [`comment_above`](crate::comment_above). As text it says what was found or refused.
#[derive(Debug, Clone, PartialEq, Eq)]
pub struct CommentAbove {
    /// The number.
    pub number: Number,
    /// The place, as that of a [`Verdict`].
    pub place: usize,
    /// The comment's token number; none where there is none.
    pub comment: Option<usize>,
    /// The token number of the keyword that the search passed: why the comment belongs to the token
    /// that was looked up. None where it passed none, found no comment or is declined.
    pub keyword: Option<usize>,
    pub(crate) cause: Cause,
}

impl CommentAbove {
    pub(crate) fn new(answer: [u64; 4], cause: impl FnOnce(Number, usize) -> Cause) -> Self {
        let [number, place, comment, keyword] = answer;
        let (number, place) = (Number::of(number), offset(place));
        let (comment, keyword) = (or_none(comment), or_none(keyword));
        Self { number, place, comment, keyword, cause: cause(number, place) }
    }
}

impl std::error::Error for CommentAbove {}

/// The answer of [`doc_comment_above`](crate::doc_comment_above). As text it says what was found or
/// refused.
#[derive(Debug, Clone, PartialEq, Eq)]
pub struct Lookup {
    /// The number.
    pub number: Number,
    /// The place, as that of a [`Verdict`].
    pub place: usize,
    /// The length of the doc text; none where there is none.
    pub found: Option<usize>,
    pub(crate) cause: Cause,
}

impl Lookup {
    pub(crate) fn new(answer: [u64; 3], cause: impl FnOnce(Number, usize) -> Cause) -> Self {
        let [number, place, found] = answer;
        let (number, place) = (Number::of(number), offset(place));
        Self { number, place, found: or_none(found), cause: cause(number, place) }
    }
}

impl std::error::Error for Lookup {}

fn or_none(number: u64) -> Option<usize> {
    (number != NONE).then(|| offset(number))
}

pub(crate) fn offset(number: u64) -> usize {
    usize::try_from(number).expect("an offset, a length or a token number")
}
