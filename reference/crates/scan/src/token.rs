//! The classes of tokens, each a recognizer of a whole token's text.

use crate::number::is_number;
use crate::string::{is_character, is_string};

/// Whether a text is one token.
#[must_use]
pub fn is_token(text: &[u8]) -> bool {
    is_white_space(text)
        || is_reserved(text)
        || is_alphanumeric(text)
        || is_symbolic(text)
        || is_number(text)
        || is_string(text)
        || is_character(text)
        || is_comment(text)
}

/// A formatting character: blank, tab, line feed, vertical tab, form feed, carriage return.
pub(crate) fn is_space(byte: u8) -> bool {
    matches!(byte, b'\t'..=b'\r' | b' ')
}

/// A run of formatting characters.
fn is_white_space(text: &[u8]) -> bool {
    !text.is_empty() && text.iter().all(|&byte| is_space(byte))
}

/// A reserved word of 2.1 that is no identifier of 2.4 as well, or the dot of a long identifier.
fn is_reserved(text: &[u8]) -> bool {
    matches!(text, b"(" | b")" | b"[" | b"]" | b"{" | b"}" | b"," | b";" | b"..." | b"_" | b".")
}

/// An alphanumeric identifier of 2.4: letters, digits, primes and underbars, the first of them a letter
/// or a prime. The reserved words in letters are among them.
fn is_alphanumeric(text: &[u8]) -> bool {
    let is_part = |byte: &u8| byte.is_ascii_alphanumeric() || matches!(byte, b'\'' | b'_');
    let is_first = |byte: &u8| byte.is_ascii_alphabetic() || *byte == b'\'';
    text.first().is_some_and(is_first) && text.iter().all(is_part)
}

/// A symbolic identifier of 2.4. The reserved words in symbols are among them.
fn is_symbolic(text: &[u8]) -> bool {
    let is_symbol = |byte: &u8| b"!%&$#+-/:<=>?@\\~`^|*".contains(byte);
    !text.is_empty() && text.iter().all(is_symbol)
}

/// A comment of 2.3: comment brackets, properly nested, the outermost closed by the last byte.
pub(crate) fn is_comment(text: &[u8]) -> bool {
    let Some(mut rest) = text.strip_prefix(b"(*") else {
        return false;
    };
    let mut open = 1;
    while open > 0 {
        rest = match rest {
            [b'(', b'*', behind @ ..] => {
                open += 1;
                behind
            }
            [b'*', b')', behind @ ..] => {
                open -= 1;
                behind
            }
            [_, behind @ ..] => behind,
            [] => return false,
        };
    }
    rest.is_empty()
}
