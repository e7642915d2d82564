//! The texts that are scanned.

use crate::sheets::{accented, branches};
use diverplume::record::limit;

/// A text with its name.
pub struct Named {
    pub name: &'static str,
    pub text: Vec<u8>,
}

/// A text of at most `length` bytes: its start, a part as often as it fits, its end.
fn filled(start: &str, part: &str, end: &str, length: usize) -> Vec<u8> {
    let count = (length - start.len() - end.len()) / part.len();
    [start, &part.repeat(count), end].concat().into_bytes()
}

/// Comments inside one another.
fn nested(length: usize) -> Vec<u8> {
    ["(*".repeat(length / 4), "*)".repeat(length / 4)].concat().into_bytes()
}

/// The rules of as many branches as fit, and as have no more tokens than a sheet may have.
fn rules(length: usize) -> String {
    let texts = (1..).map(branches);
    let fit = |text: &String| text.len() <= length && diverplume::scan(text.as_bytes()).is_ok();
    texts.take_while(fit).last().expect("the rules of a branch fit")
}

/// The texts of a length: rule files, then those on which a scanner may take long.
pub fn all(length: usize) -> Vec<Named> {
    // A part of 16 bytes with two tokens: a full text has as many tokens as there may be.
    assert_eq!(limit::TEXT / 16 * 2, limit::TOKENS);
    [
        ("rules", rules(length).into_bytes()),
        ("accents", accented(&rules(length)).into_bytes()),
        ("identifier", filled("", "structureHarbour", "", length)),
        ("keywords", filled("", "datatype\n       ", "", length)),
        ("one-byte", filled("", ";", "", length.min(limit::TOKENS))),
        ("blanks", filled("", " ", "", length)),
        ("symbols", filled("", "*", "", length)),
        ("digits", filled("", "7", "", length)),
        ("reals", filled("", "1234567.89e~123 ", "", length)),
        ("comment", filled("(*", " why ", "*)", length)),
        ("accents-in-comment", filled("(*", " \u{e9}\u{20ac}o", "*)", length)),
        ("nested-comments", nested(length)),
        ("stars-in-comment", filled("(*", "*", "*)", length)),
        ("string", filled("\"", "x", "\"", length)),
        ("escapes", filled("\"", "\\065\\u0041\\^A\\n", "\"", length)),
        ("gaps", filled("\"", "\\ \\", "\"", length)),
        ("one-gap", filled("\"\\", " ", "\\\"", length)),
        ("gaps-in-character", filled("#\"", "\\ \\", "a\"", length)),
        ("hash-long-string", filled("#\"", "\\ \\", "ab\"", length)),
        ("hash-strings", filled("", "#\"abcdefghijklm\"", "", length)),
    ]
    .map(|(name, text)| Named { name, text })
    .into()
}
