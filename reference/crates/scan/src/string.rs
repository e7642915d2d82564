//! String and character constants, section 2.2.

use crate::token::is_space;

pub(crate) fn is_string(text: &[u8]) -> bool {
    characters(text).is_some()
}

/// `#` and a string constant of one character.
pub(crate) fn is_character(text: &[u8]) -> bool {
    text.strip_prefix(b"#").and_then(characters) == Some(1)
}

/// How many characters a string constant denotes, none where the text is no string constant.
fn characters(text: &[u8]) -> Option<usize> {
    let mut rest = text.strip_prefix(b"\"")?;
    let mut count = 0;
    loop {
        (rest, count) = match rest {
            [b'"'] => return Some(count),
            [b'"', ..] => return None,
            [b'\\', behind @ ..] => match gap(behind) {
                Some(left) => (left, count),
                None => (escape(behind)?, count + 1),
            },
            [b' '..=b'~', left @ ..] => (left, count + 1),
            _ => return None,
        };
    }
}

/// What is left behind a gap, formatting characters and `\`, from behind its first `\`.
fn gap(text: &[u8]) -> Option<&[u8]> {
    let end = text.iter().position(|&byte| !is_space(byte))?;
    let left = text[end..].strip_prefix(b"\\")?;
    (end > 0).then_some(left)
}

/// What is left behind an escape that denotes a character, from behind its `\`.
fn escape(text: &[u8]) -> Option<&[u8]> {
    match text {
        [b'a' | b'b' | b't' | b'n' | b'v' | b'f' | b'r' | b'"' | b'\\', left @ ..] => Some(left),
        [b'^', b'@'..=b'_', left @ ..] => Some(left),
        [b'u', code @ ..] => within_alphabet(code, 4, 16),
        code => within_alphabet(code, 3, 10),
    }
}

/// What is left behind so many digits that number one of the 256 characters.
fn within_alphabet(text: &[u8], digits: usize, radix: u32) -> Option<&[u8]> {
    let (code, left) = text.split_at_checked(digits)?;
    let value = code.iter().try_fold(0, |value, &byte| {
        char::from(byte).to_digit(radix).map(|digit| radix * value + digit)
    });
    value.filter(|&value| value < 256).map(|_| left)
}
