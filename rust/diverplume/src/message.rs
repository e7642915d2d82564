//! Verdicts in words.

use crate::scan::{longest_output, Refusal};
use crate::verdict::{CommentAbove, Lookup, Measures, Number, Verdict};
use diverplume_record::{command, limit, Bytes, Position, Stop};
use std::fmt;

/// What a message needs beyond the numbers.
#[derive(Debug, Clone, PartialEq, Eq)]
pub(crate) enum Cause {
    /// Nothing.
    None,
    /// The lengths of text and record.
    Lengths(usize, usize),
    /// A place in the text and the byte there.
    Text(Position, u8),
    /// A place in the text and the broken character there.
    Broken(Position, Bytes),
    /// What is wrong at a place in the record.
    Record(Fault),
    /// The part of the record at which formatting stops.
    Stop(Box<Stop>),
    /// The tab size, and the output's length.
    Output(u32, usize),
    /// The output of a doc lookup.
    DocOutput(usize),
    /// A token number, and the count of tokens.
    Token(u64, usize),
    /// The length of a text by itself.
    TextLength(usize),
    /// The output of a scan, and a length that is enough.
    TokenOutput(usize, usize),
}

/// What is wrong at a place in the record.
#[derive(Debug, Clone, Copy, PartialEq, Eq)]
pub(crate) enum Fault {
    /// The tokens end there and cover only so many of the text's bytes.
    Tokens { covered: usize, text: usize, is_end: bool },
    /// The record ends there.
    End,
    /// This command.
    Command(u8),
}

impl Cause {
    /// The cause of numbers 1 to 4, 6, 13 and 14.
    pub(crate) fn of_sheet(number: Number, place: usize, text: &[u8], record: &[u8]) -> Self {
        match number {
            Number::TooLong => Self::Lengths(text.len(), record.len()),
            Number::NotUtf8 => Self::broken(place, text),
            Number::CommentsLeft => Self::in_text(place, text),
            Number::Malformed | Number::TooDeep => Self::Record(Fault::at(place, text, record)),
            Number::Missing | Number::Import => {
                Stop::at(text, record, place).map_or(Self::None, |stop| Self::Stop(Box::new(stop)))
            }
            _ => Self::None,
        }
    }

    /// A place in the text.
    fn in_text(place: usize, text: &[u8]) -> Self {
        let byte = text.get(place);
        byte.map_or(Self::None, |&byte| Self::Text(Position::of(text, place), byte))
    }

    /// A broken character in the text.
    fn broken(place: usize, text: &[u8]) -> Self {
        text.get(place..)
            .map_or(Self::None, |rest| Self::Broken(Position::of(text, place), Bytes::broken(rest)))
    }

    /// The cause of a scan's number.
    pub(crate) fn of_scan(number: Number, place: usize, text: &[u8], output: usize) -> Self {
        match number {
            Number::TooLong => Self::TextLength(text.len()),
            Number::OutputTooShort => Self::TokenOutput(output, longest_output(text)),
            Number::NotUtf8 => Self::broken(place, text),
            _ => Self::in_text(place, text),
        }
    }

    /// The cause of numbers 7 and 8.
    pub(crate) fn of_output(number: Number, tab_size: u32, output: usize) -> Option<Self> {
        matches!(number, Number::IndentTooWide | Number::OutputTooShort)
            .then_some(Self::Output(tab_size, output))
    }

    /// The cause of a lookup's number.
    pub(crate) fn of_lookup(
        number: Number,
        place: usize,
        text: &[u8],
        record: &[u8],
        token: u64,
        output: usize,
    ) -> Self {
        match number {
            Number::OutputTooShort => Self::DocOutput(output),
            Number::NoToken => Self::Token(token, tokens(record).count()),
            _ => Self::of_sheet(number, place, text, record),
        }
    }
}

/// The lengths of the tokens at the record's start.
fn tokens(record: &[u8]) -> impl Iterator<Item = usize> + '_ {
    record.chunks(4).map_while(|chunk| match *chunk {
        [command::TOKEN, _, low, high] => Some(usize::from(u16::from_le_bytes([low, high]))),
        _ => None,
    })
}

impl Fault {
    fn at(place: usize, text: &[u8], record: &[u8]) -> Self {
        let command = record.get(place).copied();
        let covered: usize = tokens(record).sum();
        let is_behind_tokens = place == 4 * tokens(record).count();
        if is_behind_tokens && covered < text.len() && command != Some(command::TOKEN) {
            return Self::Tokens { covered, text: text.len(), is_end: command.is_none() };
        }
        command.map_or(Self::End, Self::Command)
    }
}

impl fmt::Display for Fault {
    fn fmt(&self, f: &mut fmt::Formatter<'_>) -> fmt::Result {
        match *self {
            Self::Tokens { covered, text, is_end } => {
                let end = if is_end { ", its end" } else { "" };
                write!(f, "{end}: the tokens cover {covered} of the text's {text} bytes")
            }
            Self::End => f.write_str(", its end: a command is missing there"),
            Self::Command(byte) => match command::name(byte) {
                Some(name) => write!(f, ": the command 0x{byte:02X} ({name}) does not fit there"),
                None => write!(f, ": there is no command 0x{byte:02X}"),
            },
        }
    }
}

/// Writes what is said of the sheet itself: numbers 1 to 4, for verdicts and lookups alike, 13 and 14.
fn write_sheet(
    f: &mut fmt::Formatter<'_>,
    number: Number,
    place: usize,
    cause: &Cause,
) -> fmt::Result {
    write!(f, "refused ({}): ", number as u8)?;
    match *cause {
        Cause::Lengths(text, record) => write!(
            f,
            "the text has {text} bytes and the record {record}, the most are {} and {}; split the \
             file into several sheets",
            limit::TEXT,
            limit::RECORD
        ),
        Cause::Text(at, byte) => write_text(f, number, place, at, byte),
        Cause::Broken(at, bytes) => write!(
            f,
            "{bytes} at {at} of the text (offset {place}) is no character in UTF-8; save the file \
             in UTF-8"
        ),
        Cause::Record(Fault::Command(byte)) if number == Number::TooDeep => write!(
            f,
            "the form {} (0x{byte:02X}) at offset {place} of the record stands inside {} others, \
             the most there may be; give an inner part a declaration of its own",
            command::name(byte).unwrap_or("unknown"),
            limit::FORMS
        ),
        Cause::Stop(ref stop) => write!(f, "{stop}"),
        Cause::Record(fault) => write!(
            f,
            "the record is malformed at offset {place}{fault}; write the record again, for \
             example with diverplume::record"
        ),
        _ => write!(f, "place {place}"),
    }
}

/// Writes what is said of a place in the text, numbers 10 to 12.
fn write_text(
    f: &mut fmt::Formatter<'_>,
    number: Number,
    place: usize,
    at: Position,
    byte: u8,
) -> fmt::Result {
    let at = format_args!("{at} of the text (offset {place})");
    match number {
        Number::OpenComment => write!(
            f,
            "the comment that opens at {at} has no end; close it, and each comment inside it, \
             with *)"
        ),
        Number::NoString => write!(
            f,
            "the double quote at {at} begins no string constant; close the string on its line, \
             write control characters and bytes of 128 and more as escapes such as \\n, \\009 or \
             \\195, and a backslash as \\\\"
        ),
        _ => write!(
            f,
            "no token begins with the byte 0x{byte:02X} at {at}; move it into a comment, or write \
             it in a string constant as \\{byte:03}"
        ),
    }
}

impl Verdict {
    /// Writes what is said of comments left.
    fn write_comments(&self, f: &mut fmt::Formatter<'_>, at: Position) -> fmt::Result {
        let (count, them) = match self.comments.len() {
            1 => ("a comment stands".to_owned(), "it"),
            count => (format!("{count} comments stand"), "them"),
        };
        write!(
            f,
            "refused ({}): {count} where formatting would lose {them}, the first at {at} of the \
             text (offset {}); move {them} above a declaration",
            self.number as u8, self.place
        )
    }

    /// Writes what is said of the tab size and the output, numbers 7 and 8.
    fn write_output(
        &self,
        f: &mut fmt::Formatter<'_>,
        tab_size: u32,
        output: usize,
    ) -> fmt::Result {
        write!(f, "declined ({}): ", self.number as u8)?;
        if self.number == Number::IndentTooWide {
            let (deepest, most) = (self.measures.deepest, u32::MAX);
            return write!(
                f,
                "an indent of {deepest} levels at tab size {tab_size} is over {most} spaces; take \
                 a smaller tab size"
            );
        }
        let needed = self.measures.length(tab_size);
        write!(
            f,
            "the formatted text has {needed} bytes, the output {output}; lend an output of at \
             least {needed} bytes"
        )
    }
}

impl fmt::Display for Verdict {
    fn fmt(&self, f: &mut fmt::Formatter<'_>) -> fmt::Result {
        match (self.number, &self.cause) {
            (Number::Accepted, _) => {
                let Measures { deepest, letters, units } = self.measures;
                write!(f, "accepted: deepest {deepest}, {letters} letters, {units} units")
            }
            (Number::CommentsLeft, &Cause::Text(at, _)) => self.write_comments(f, at),
            (_, &Cause::Output(tab_size, output)) => self.write_output(f, tab_size, output),
            (number, cause) => write_sheet(f, number, self.place, cause),
        }
    }
}

/// Writes what is said of a lookup that is declined.
fn write_declined(
    f: &mut fmt::Formatter<'_>,
    number: Number,
    place: usize,
    cause: &Cause,
) -> fmt::Result {
    match *cause {
        Cause::DocOutput(output) => write!(
            f,
            "declined ({}): the doc text has more than the output's {output} bytes; an output as \
             long as the sheet's text is long enough",
            number as u8
        ),
        Cause::Token(token, count) => write!(
            f,
            "declined ({}): there is no token {token}, the sheet has {count} tokens, numbered from \
             0; ask for one of these",
            number as u8
        ),
        _ => write_sheet(f, number, place, cause),
    }
}

impl fmt::Display for CommentAbove {
    fn fmt(&self, f: &mut fmt::Formatter<'_>) -> fmt::Result {
        match (self.number, self.comment, self.keyword) {
            (Number::Accepted, Some(comment), Some(keyword)) => {
                write!(f, "found: token {comment}, across the keyword at token {keyword}")
            }
            (Number::Accepted, Some(comment), None) => write!(f, "found: token {comment}"),
            (Number::Accepted, None, _) => f.write_str("none found"),
            _ => write_declined(f, self.number, self.place, &self.cause),
        }
    }
}

impl fmt::Display for Lookup {
    fn fmt(&self, f: &mut fmt::Formatter<'_>) -> fmt::Result {
        match (self.number, self.found) {
            (Number::Accepted, Some(length)) => write!(f, "found: {length} bytes"),
            (Number::Accepted, None) => f.write_str("none found"),
            _ => write_declined(f, self.number, self.place, &self.cause),
        }
    }
}

impl fmt::Display for Refusal {
    fn fmt(&self, f: &mut fmt::Formatter<'_>) -> fmt::Result {
        let number = self.number as u8;
        match self.cause {
            Cause::TextLength(length) if length > limit::TEXT => write!(
                f,
                "refused ({number}): the text has {length} bytes, the most are {}; split the file",
                limit::TEXT
            ),
            Cause::TextLength(_) => write!(
                f,
                "refused ({number}): the text has over {} tokens, the most there may be; split the \
                 file",
                limit::TOKENS
            ),
            Cause::TokenOutput(output, enough) => write!(
                f,
                "declined ({number}): the tokens take more than the output's {output} bytes; an \
                 output of {enough} bytes is long enough"
            ),
            _ => write_sheet(f, self.number, self.place, &self.cause),
        }
    }
}
