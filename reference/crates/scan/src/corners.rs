//! Texts at the corners of the grammar, and at the limits, with their answers.

use decode::number::{BEGINS_NO_TOKEN, NO_STRING, OPEN_COMMENT, TOO_LONG};
use std::iter::repeat_n;
use Expected::{Refused, Tokens};

/// What a text gives.
#[derive(Debug, Clone, Copy, PartialEq, Eq)]
pub enum Expected {
    /// These tokens.
    Tokens(&'static [&'static str]),
    /// A refusal: number and place.
    Refused(u8, u32),
}

/// Numbers.
const NUMBERS: &[(&str, Expected)] = &[
    ("0x", Tokens(&["0", "x"])),
    ("0xg", Tokens(&["0", "xg"])),
    ("0X1", Tokens(&["0", "X1"])),
    ("00x1", Tokens(&["00", "x1"])),
    ("0w", Tokens(&["0", "w"])),
    ("0wx", Tokens(&["0", "wx"])),
    ("~0w1", Tokens(&["~0", "w1"])),
    ("~0x1F", Tokens(&["~0x1F"])),
    ("0x1e5", Tokens(&["0x1e5"])),
    ("0x1.5", Tokens(&["0x1", ".", "5"])),
    ("0w1e5", Tokens(&["0w1", "e5"])),
    ("0wx1F", Tokens(&["0wx1F"])),
    ("1e", Tokens(&["1", "e"])),
    ("1e~", Tokens(&["1", "e", "~"])),
    ("1e+5", Tokens(&["1", "e", "+", "5"])),
    ("1.5e~3", Tokens(&["1.5e~3"])),
    ("1.5E3", Tokens(&["1.5E3"])),
    ("1e5", Tokens(&["1e5"])),
    ("1.5e~", Tokens(&["1.5", "e", "~"])),
    ("1.e5", Tokens(&["1", ".", "e5"])),
    ("1e2.0", Tokens(&["1e2", ".", "0"])),
    ("1..2", Tokens(&["1", ".", ".", "2"])),
    ("1...", Tokens(&["1", "..."])),
    (".5", Tokens(&[".", "5"])),
    ("1_000", Tokens(&["1", "_", "000"])),
    ("12ab", Tokens(&["12", "ab"])),
    ("~5", Tokens(&["~5"])),
    ("~~5", Tokens(&["~~", "5"])),
    ("-~5", Tokens(&["-~", "5"])),
    ("=~1", Tokens(&["=~", "1"])),
    ("x~1", Tokens(&["x", "~1"])),
    ("~.5", Tokens(&["~", ".", "5"])),
];

/// Character constants and what begins like one.
const CHARACTERS: &[(&str, Expected)] = &[
    ("#\"c\"", Tokens(&["#\"c\""])),
    ("#\"ab\"", Tokens(&["#", "\"ab\""])),
    ("#\"\"", Tokens(&["#", "\"\""])),
    ("#\"c", Refused(NO_STRING, 1)),
    ("##\"a\"", Tokens(&["##", "\"a\""])),
    ("#\"\\   \\a\"", Tokens(&["#\"\\   \\a\""])),
    ("#\"a\\ \\\"", Tokens(&["#\"a\\ \\\""])),
    ("#\"\\ \\\"", Tokens(&["#", "\"\\ \\\""])),
    ("#\"\\n\"", Tokens(&["#\"\\n\""])),
    ("#[", Tokens(&["#", "["])),
    ("#", Tokens(&["#"])),
];

/// Identifiers, dots and symbols.
const IDENTIFIERS: &[(&str, Expected)] = &[
    ("", Tokens(&[])),
    ("'", Tokens(&["'"])),
    ("''", Tokens(&["''"])),
    ("''a", Tokens(&["''a"])),
    ("'1", Tokens(&["'1"])),
    ("1'", Tokens(&["1", "'"])),
    ("_a", Tokens(&["_", "a"])),
    ("__", Tokens(&["_", "_"])),
    ("val'", Tokens(&["val'"])),
    ("Val", Tokens(&["Val"])),
    ("a_'1", Tokens(&["a_'1"])),
    ("..", Tokens(&[".", "."])),
    ("...", Tokens(&["..."])),
    ("....", Tokens(&["...", "."])),
    ("A.b", Tokens(&["A", ".", "b"])),
    (":>", Tokens(&[":>"])),
    ("::", Tokens(&["::"])),
    (":>:", Tokens(&[":>:"])),
    ("=>", Tokens(&["=>"])),
    ("->", Tokens(&["->"])),
    ("`", Tokens(&["`"])),
    ("\\", Tokens(&["\\"])),
    ("!%&$#+-/:<=>?@\\~`^|*", Tokens(&["!%&$#+-/:<=>?@\\~`^|*"])),
    ("([{,;}])", Tokens(&["(", "[", "{", ",", ";", "}", "]", ")"])),
    (" \t\n\u{b}\u{c}\r x", Tokens(&[" \t\n\u{b}\u{c}\r ", "x"])),
];

/// Comments.
const COMMENTS: &[(&str, Expected)] = &[
    ("(*)", Refused(OPEN_COMMENT, 0)),
    ("(*) x\n", Refused(OPEN_COMMENT, 0)),
    ("(*)*)", Tokens(&["(*)*)"])),
    ("(**)", Tokens(&["(**)"])),
    ("(***)", Tokens(&["(***)"])),
    ("(*(*)*)", Refused(OPEN_COMMENT, 0)),
    ("(* (*) *)", Refused(OPEN_COMMENT, 0)),
    ("(*(**)*)", Tokens(&["(*(**)*)"])),
    ("(**)*)", Tokens(&["(**)", "*", ")"])),
    ("*)", Tokens(&["*", ")"])),
    ("(* \"*)\" *)", Refused(NO_STRING, 6)),
    ("((*x*)", Tokens(&["(", "(*x*)"])),
    ("+(*x*)", Tokens(&["+", "(*x*)"])),
    ("( *", Tokens(&["(", " ", "*"])),
    ("(*\u{7f}\0*)", Tokens(&["(*\u{7f}\0*)"])),
    ("x (*", Refused(OPEN_COMMENT, 2)),
];

/// Strings, and bytes that begin no token.
const STRINGS: &[(&str, Expected)] = &[
    ("\"\"", Tokens(&["\"\""])),
    ("\"\\^\\\"", Tokens(&["\"\\^\\\""])),
    ("\"\\^a\"", Refused(NO_STRING, 0)),
    ("\"\\^@\\^_\"", Tokens(&["\"\\^@\\^_\""])),
    ("\"\\^?\"", Refused(NO_STRING, 0)),
    ("\"\\^`\"", Refused(NO_STRING, 0)),
    ("\"\\12\"", Refused(NO_STRING, 0)),
    ("\"\\256\"", Refused(NO_STRING, 0)),
    ("\"\\u0100\"", Refused(NO_STRING, 0)),
    ("\"\\U0041\"", Refused(NO_STRING, 0)),
    ("\"\\u00F\"", Refused(NO_STRING, 0)),
    ("\"\\  x\"", Refused(NO_STRING, 0)),
    ("\"\\x\"", Refused(NO_STRING, 0)),
    ("\"\t\"", Refused(NO_STRING, 0)),
    ("\"\n\"", Refused(NO_STRING, 0)),
    ("\"\u{7f}\"", Refused(NO_STRING, 0)),
    ("\"\\", Refused(NO_STRING, 0)),
    ("\"", Refused(NO_STRING, 0)),
    ("\"\\0655\"", Tokens(&["\"\\0655\""])),
    ("\"\\255\"", Tokens(&["\"\\255\""])),
    ("\"\\u00FF\"", Tokens(&["\"\\u00FF\""])),
    ("\"\\u00ff\"", Tokens(&["\"\\u00ff\""])),
    ("\"\\ \\\"", Tokens(&["\"\\ \\\""])),
    ("\"\\\t\n\u{b}\u{c}\r \\\"", Tokens(&["\"\\\t\n\u{b}\u{c}\r \\\""])),
    ("\"\\a\\b\\t\\n\\v\\f\\r\\\"\\\\\"", Tokens(&["\"\\a\\b\\t\\n\\v\\f\\r\\\"\\\\\""])),
    ("\"(*\"", Tokens(&["\"(*\""])),
    ("\u{7f}", Refused(BEGINS_NO_TOKEN, 0)),
    ("\0", Refused(BEGINS_NO_TOKEN, 0)),
    ("x\u{1f}\"", Refused(BEGINS_NO_TOKEN, 1)),
    ("x\"\u{1f}", Refused(NO_STRING, 1)),
    ("\u{e9}", Refused(BEGINS_NO_TOKEN, 0)),
    ("(* \u{e9} *)", Tokens(&["(* \u{e9} *)"])),
    ("(*\u{e9}(*\u{20ac}*)\u{1f600}*)\u{e9}", Refused(BEGINS_NO_TOKEN, 17)),
    ("(*\u{e9}", Refused(OPEN_COMMENT, 0)),
    ("\"\u{e9}\"", Refused(NO_STRING, 0)),
    ("#\"\u{e9}\"", Refused(NO_STRING, 1)),
    ("x\u{e9}", Refused(BEGINS_NO_TOKEN, 1)),
    ("x \u{a0}", Refused(BEGINS_NO_TOKEN, 2)),
    ("\u{3000}x", Refused(BEGINS_NO_TOKEN, 0)),
];

/// All corners: a text and what it gives.
pub fn all() -> impl Iterator<Item = (&'static str, Expected)> {
    [NUMBERS, CHARACTERS, IDENTIFIERS, COMMENTS, STRINGS].into_iter().flatten().copied()
}

/// A text at a limit.
#[derive(Debug, Clone)]
pub struct Limit {
    /// What it is.
    pub name: &'static str,
    /// The text.
    pub text: Vec<u8>,
    /// The count of tokens, or number and place of the refusal.
    pub answer: Result<usize, (u8, u32)>,
}

fn limit(name: &'static str, parts: &[(&str, usize)], answer: Result<usize, (u8, u32)>) -> Limit {
    let bytes = parts.iter().flat_map(|&(part, count)| repeat_n(part.bytes(), count).flatten());
    Limit { name, text: bytes.collect(), answer }
}

/// The texts at the limits.
#[must_use]
pub fn limits() -> Vec<Limit> {
    vec![
        limit("4,096 tokens", &[(";", 4_096)], Ok(4_096)),
        limit("4,097 tokens", &[(";", 4_097)], Err((TOO_LONG, 0))),
        limit("4,096 long tokens", &[("abcdefg ", 2_048)], Ok(4_096)),
        limit("a word past 4,096 tokens", &[("a ", 2_048), ("a", 1)], Err((TOO_LONG, 0))),
        limit("5,000 tokens, then a quote", &[(";", 5_000), ("\"", 1)], Err((NO_STRING, 5_000))),
        limit(
            "5,000 tokens, an open comment",
            &[(";", 5_000), ("(*", 1)],
            Err((OPEN_COMMENT, 5_000)),
        ),
        limit("5,000 tokens, then 0", &[(";", 5_000), ("\0", 1)], Err((BEGINS_NO_TOKEN, 5_000))),
        limit("32,768 blanks", &[(" ", 32_768)], Ok(1)),
        limit("32,769 blanks", &[(" ", 32_769)], Err((TOO_LONG, 0))),
        limit("32,769 bytes, one wide", &[(" ", 32_767), ("\u{e9}", 1)], Err((TOO_LONG, 0))),
        limit(
            "a wide byte behind a quote",
            &[("\"", 1), ("x", 9), ("\u{e9}", 1)],
            Err((NO_STRING, 0)),
        ),
        limit("accents, 32,768 bytes", &[("(*", 1), ("\u{e9}", 16_382), ("*)", 1)], Ok(1)),
        limit("a comment of 32,768 bytes", &[("(*", 8_192), ("*)", 8_192)], Ok(1)),
        limit("8,191 comments open", &[("(*", 8_192), ("*)", 1)], Err((OPEN_COMMENT, 0))),
        limit("32,768 digits", &[("7", 32_768)], Ok(1)),
        limit("a string of 32,768 bytes", &[("\"", 1), ("s", 32_766), ("\"", 1)], Ok(1)),
        limit("a string without its end", &[("\"", 1), ("s", 32_767)], Err((NO_STRING, 0))),
        limit("gaps in a character", &[("#\"", 1), ("\\ \\", 10_921), ("a\"", 1)], Ok(1)),
        limit("gaps in an empty string", &[("#\"", 1), ("\\ \\", 10_921), ("\"", 1)], Ok(2)),
    ]
}
