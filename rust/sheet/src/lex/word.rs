//! What the parser reads: tokens other than white space and comments, by class.

use super::{is_space, is_symbolic, Lexeme};
use diverplume_record::{SyntaxKind, Token};

/// What a token may stand for.
#[derive(Debug, Clone, Copy, PartialEq, Eq)]
pub(crate) enum Class {
    /// A reserved word.
    Reserved,
    /// An identifier.
    Name,
    /// A type variable.
    TyVar,
    /// A numeral of decimal digits that can label a row of a record.
    Numeral,
    /// Any other constant.
    Constant,
}

/// A token other than white space and comments.
#[derive(Debug, Clone, Copy)]
pub(crate) struct Word<'a> {
    pub(crate) token: Token,
    pub(crate) text: &'a str,
    pub(crate) class: Class,
    pub(crate) offset: usize,
}

/// The words of a text.
pub(crate) fn words<'a>(text: &'a [u8], tokens: &[Lexeme]) -> Vec<Word<'a>> {
    let mut words = Vec::new();
    for (number, token) in (0..).zip(tokens) {
        let part = &text[token.range.clone()];
        if token.kind == SyntaxKind::BlockComment || part.first().copied().is_none_or(is_space) {
            continue;
        }
        let part = std::str::from_utf8(part).unwrap_or_default();
        let (token, offset) = (Token(number), token.range.start);
        words.push(Word { token, text: part, class: class(part), offset });
    }
    words
}

/// The class of a token that is neither white space nor a comment.
fn class(text: &str) -> Class {
    let bytes = text.as_bytes();
    match bytes[0] {
        b'\'' => Class::TyVar,
        b'#' if bytes.get(1) == Some(&b'"') => Class::Constant,
        b'0'..=b'9' if bytes.iter().all(u8::is_ascii_digit) => Class::Numeral,
        b'"' | b'0'..=b'9' => Class::Constant,
        b'~' if bytes.get(1).is_some_and(u8::is_ascii_digit) => Class::Constant,
        first if !first.is_ascii_alphabetic() && !is_symbolic(first) => Class::Reserved,
        _ if is_reserved(text) => Class::Reserved,
        _ => Class::Name,
    }
}

/// Whether a word of letters or symbols is reserved.
#[rustfmt::skip]
fn is_reserved(text: &str) -> bool {
    matches!(
        text,
        "abstype" | "and" | "andalso" | "as" | "case" | "datatype" | "do" | "else" | "end"
            | "eqtype" | "exception" | "fn" | "fun" | "functor" | "handle" | "if" | "in"
            | "include" | "infix" | "infixr" | "let" | "local" | "nonfix" | "of" | "op" | "open"
            | "orelse" | "raise" | "rec" | "sharing" | "sig" | "signature" | "struct"
            | "structure" | "then" | "type" | "val" | "where" | "while" | "with" | "withtype"
            | ":" | ":>" | "|" | "=" | "=>" | "->" | "#"
    )
}
