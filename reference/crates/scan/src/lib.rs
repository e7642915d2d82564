//! A scanner after sections 2 and 3 of The Definition of Standard ML (Revised).
//!
//! [`is_token`] tells whether a text is one token, by a recognizer for each class of tokens.
//! [`scan`] tries every prefix of what is left and takes the longest. Nothing here is quick on long
//! texts; it is plain, and written apart from the port and from the port's definitions.

pub mod corners;
mod kind;
mod number;
mod string;
mod token;

pub use kind::{kind, WORDS};
pub use token::is_token;

use decode::{number as numbers, Refusal};
use schema::{command, limit};
use token::is_comment;

/// A token: its kind and its length in bytes.
#[derive(Debug, Clone, Copy, PartialEq, Eq)]
pub struct Token {
    /// The kind, 0 to 20.
    pub kind: u8,
    /// The length.
    pub length: usize,
}

/// The length of the longest token at the start of a text, none where no token begins there.
/// Where `(*` stands only a comment is one.
fn longest(text: &[u8]) -> Option<usize> {
    let is_one = if text.starts_with(b"(*") { is_comment } else { is_token };
    (1..=text.len()).rev().find(|&length| is_one(&text[..length]))
}

/// The tokens of a text, or its refusal.
pub type Scanned = Result<Vec<Token>, Refusal>;

/// The tokens of a text; they tile it.
///
/// # Errors
///
/// The refusal of a text that has none: 1, 2, then the first place at which no token begins, then 1
/// for too many tokens.
pub fn scan(text: &[u8]) -> Scanned {
    if text.len() > limit::TEXT {
        return Err(refusal(numbers::TOO_LONG, 0));
    }
    if let Err(error) = std::str::from_utf8(text) {
        return Err(refusal(numbers::NOT_UTF8, error.valid_up_to()));
    }
    let (mut tokens, mut place) = (Vec::new(), 0);
    while place < text.len() {
        let rest = &text[place..];
        let length = longest(rest).ok_or_else(|| refusal(missing(rest[0]), place))?;
        tokens.push(Token { kind: kind(&rest[..length]), length });
        place += length;
    }
    if tokens.len() > limit::TOKENS {
        return Err(refusal(numbers::TOO_LONG, 0));
    }
    Ok(tokens)
}

/// The number where no token begins with this byte.
fn missing(first: u8) -> u8 {
    match first {
        b'(' => numbers::OPEN_COMMENT,
        b'"' => numbers::NO_STRING,
        _ => numbers::BEGINS_NO_TOKEN,
    }
}

fn refusal(number: u8, place: usize) -> Refusal {
    Refusal { number, place: u32::try_from(place).expect("a place within a text") }
}

/// The commands that stand for the tokens in a record.
#[must_use]
pub fn commands(tokens: &[Token]) -> Vec<u8> {
    let length = |token: &Token| u16::try_from(token.length).expect("at most a text's length");
    let command = |token: &Token| {
        let [low, high] = length(token).to_le_bytes();
        [command::TOKEN, token.kind, low, high]
    };
    tokens.iter().flat_map(command).collect()
}

/// What a call that writes the commands gives.
#[derive(Debug, Clone, Copy, PartialEq, Eq)]
pub struct Answer {
    /// The number.
    pub number: u8,
    /// The place.
    pub place: u32,
    /// The bytes written.
    pub written: usize,
}

/// Writes the commands at the output's start. An output that is too short stays as it is, also
/// where the text is refused.
pub fn write(scanned: &Scanned, output: &mut [u8]) -> Answer {
    let written = scanned.as_ref().map_err(|&refusal| refusal).and_then(|tokens| {
        let commands = commands(tokens);
        let start = output.get_mut(..commands.len());
        start.ok_or(refusal(numbers::OUTPUT_TOO_SHORT, 0))?.copy_from_slice(&commands);
        Ok(commands.len())
    });
    match written {
        Ok(written) => Answer { number: numbers::ACCEPTED, place: 0, written },
        Err(Refusal { number, place }) => Answer { number, place, written: 0 },
    }
}
