//! Why a text gives no sheet.

use crate::lex::{Broken, Fault};
use diverplume_record::{limit, BuildError, Bytes, Problem};
use std::fmt;

/// A line and a column of a text, both from 1; columns count characters. Written `line:column`.
#[derive(Debug, Clone, Copy, PartialEq, Eq, PartialOrd, Ord)]
pub struct Position {
    /// The line.
    pub line: usize,
    /// The column.
    pub column: usize,
}

impl Position {
    /// The position of an offset of a text; past the end that of the end.
    #[must_use]
    pub fn of(text: &[u8], offset: usize) -> Self {
        let diverplume_record::Position { line, column } =
            diverplume_record::Position::of(text, offset);
        Self { line, column }
    }
}

impl fmt::Display for Position {
    fn fmt(&self, f: &mut fmt::Formatter<'_>) -> fmt::Result {
        write!(f, "{}:{}", self.line, self.column)
    }
}

/// Why a text gives no sheet.
#[derive(Debug, Clone, Copy, PartialEq, Eq)]
pub enum Reason {
    /// It is no Standard ML.
    Syntax,
    /// The rules of formatting would lose a token, or write one that reads as another.
    Loss,
    /// It is past a limit of a sheet.
    Limit,
}

/// An error at a place of the text, written `line:column: problem`.
#[derive(Debug, Clone, PartialEq, Eq)]
pub struct Error {
    /// Where.
    pub at: Position,
    /// Why.
    pub reason: Reason,
    /// What is wrong, and what is expected or what to do.
    pub problem: String,
}

impl fmt::Display for Error {
    fn fmt(&self, f: &mut fmt::Formatter<'_>) -> fmt::Result {
        write!(f, "{}: {}", self.at, self.problem)
    }
}

impl std::error::Error for Error {}

impl Error {
    pub(crate) fn of_tokens(text: &[u8], broken: Broken) -> Self {
        let reason = match broken.fault {
            Fault::NotUtf8(_) | Fault::Long => Reason::Limit,
            Fault::Comment | Fault::Quote | Fault::Byte(_) => Reason::Syntax,
        };
        let problem = match broken.fault {
            Fault::NotUtf8(bytes) => not_utf8(bytes),
            Fault::Long if text.len() > limit::TEXT => long_text(text),
            Fault::Long => {
                format!("more than {} tokens follow without white space; set some", limit::TOKENS)
            }
            Fault::Comment => "this comment has no end; \"*)\" is expected".to_owned(),
            Fault::Quote => "this quote begins no string constant; a closing quote on the same \
                             line is expected, with printable ASCII and escapes before it"
                .to_owned(),
            Fault::Byte(byte) => format!("no token begins with the byte 0x{byte:02X}"),
        };
        Self { at: Position::of(text, broken.offset), reason, problem }
    }

    pub(crate) fn of_build(text: &[u8], error: &BuildError) -> Self {
        let problem = match &error.problem {
            Problem::TooManyTokens(_) => format!(
                "the text has more than {} tokens up to here, the most that can be formatted; \
                 split the file",
                limit::TOKENS
            ),
            Problem::LongText(_) | Problem::LongToken(_) => long_text(text),
            Problem::LongRecord(length) => format!(
                "the file's record has {length} bytes, the most is {}; split the file",
                limit::RECORD
            ),
            Problem::NotUtf8(_, bytes) => not_utf8(*bytes),
            Problem::TooDeep(_) => too_deep(),
            other => other.to_string(),
        };
        let at = Position::of(text, error.offset.unwrap_or(0));
        Self { at, reason: Reason::Limit, problem }
    }
}

fn long_text(text: &[u8]) -> String {
    format!("the text has {} bytes, the most is {}; split the file", text.len(), limit::TEXT)
}

fn not_utf8(bytes: Bytes) -> String {
    format!("{bytes} is no character in UTF-8; save the file in UTF-8")
}

/// What is said of too many forms inside one another.
pub(crate) fn too_deep() -> String {
    format!(
        "more than {} forms stand inside one another in this declaration; give an inner part a \
         declaration of its own",
        limit::FORMS
    )
}
