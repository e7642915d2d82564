//! Numbers, section 2.2.

/// An integer, word or real constant.
pub(crate) fn is_number(text: &[u8]) -> bool {
    let begins = unsigned(text).first().is_some_and(u8::is_ascii_digit);
    begins && (is_word(text) || is_integer(text) || is_real(text))
}

fn are_digits(text: &[u8]) -> bool {
    !text.is_empty() && text.iter().all(u8::is_ascii_digit)
}

fn are_hexadecimal(text: &[u8]) -> bool {
    !text.is_empty() && text.iter().all(u8::is_ascii_hexdigit)
}

/// The text without the negation sign that it may have.
fn unsigned(text: &[u8]) -> &[u8] {
    text.strip_prefix(b"~").unwrap_or(text)
}

/// Digits with or without a negation sign.
fn is_decimal(text: &[u8]) -> bool {
    are_digits(unsigned(text))
}

/// An integer constant, decimal or hexadecimal.
fn is_integer(text: &[u8]) -> bool {
    is_decimal(text) || unsigned(text).strip_prefix(b"0x").is_some_and(are_hexadecimal)
}

/// A word constant, decimal or hexadecimal.
fn is_word(text: &[u8]) -> bool {
    text.strip_prefix(b"0w").is_some_and(are_digits)
        || text.strip_prefix(b"0wx").is_some_and(are_hexadecimal)
}

/// A real constant: a decimal integer constant, then a point and digits, or `e` or `E` and a decimal
/// integer constant, or both in this order.
fn is_real(text: &[u8]) -> bool {
    match cut(text, |byte| matches!(byte, b'e' | b'E')) {
        Some((mantissa, exponent)) => {
            (is_decimal(mantissa) || is_fixed(mantissa)) && is_decimal(exponent)
        }
        None => is_fixed(text),
    }
}

/// A decimal integer constant, a point and digits.
fn is_fixed(text: &[u8]) -> bool {
    let parts = cut(text, |byte| byte == b'.');
    parts.is_some_and(|(whole, fraction)| is_decimal(whole) && are_digits(fraction))
}

/// What stands before and behind the first byte that `is_cut` takes.
fn cut(text: &[u8], is_cut: impl Fn(u8) -> bool) -> Option<(&[u8], &[u8])> {
    let at = text.iter().position(|&byte| is_cut(byte))?;
    Some((&text[..at], &text[at + 1..]))
}
