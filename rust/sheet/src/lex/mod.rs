//! The tokens of a text, white space and comments too, from the library's call.
//!
//! A call takes a text up to the limits of a sheet. A parser of longer files gets its tokens piece by
//! piece: a piece ends where white space begins or ends, so that none of its tokens would be longer in
//! the whole text but a comment or a constant with white space inside, and those have no end in it.

mod word;

pub(crate) use word::{words, Class, Word};

use diverplume::{Number, Refusal};
use diverplume_record::{limit, Bytes, SyntaxKind};
use std::ops::Range;

/// A token: its kind and its place in the text.
#[derive(Debug, Clone, PartialEq, Eq)]
pub(crate) struct Lexeme {
    pub(crate) kind: SyntaxKind,
    pub(crate) range: Range<usize>,
}

/// Where a text has no token, and why.
#[derive(Debug, Clone, Copy, PartialEq, Eq)]
pub(crate) struct Broken {
    pub(crate) offset: usize,
    pub(crate) fault: Fault,
}

/// Why no token begins at a place.
#[derive(Debug, Clone, Copy, PartialEq, Eq)]
pub(crate) enum Fault {
    /// A comment without an end.
    Comment,
    /// A double quote that begins no string constant.
    Quote,
    /// Another byte that begins no token.
    Byte(u8),
    /// A broken character.
    NotUtf8(Bytes),
    /// A token that is past the limits of a sheet, or too many without white space between.
    Long,
}

/// The length of a piece in bytes: it has at most so many tokens, and one more is within the limit.
const PIECE: usize = limit::TOKENS - 1;

/// All tokens of a text.
pub(crate) fn tokens(text: &[u8]) -> Result<Vec<Lexeme>, Broken> {
    in_pieces(text, PIECE)
}

/// All tokens of a text, in pieces of about that length.
fn in_pieces(text: &[u8], piece: usize) -> Result<Vec<Lexeme>, Broken> {
    let mut tokens = Vec::new();
    let (mut start, mut length) = (0, piece);
    while start < text.len() {
        let end = cut(text, start, length);
        let Err(broken) = scan(text, start..end, &mut tokens) else {
            (start, length) = (end, piece);
            continue;
        };
        if matches!(broken.fault, Fault::NotUtf8(_) | Fault::Long) {
            return Err(broken);
        }
        let whole = whole_before(text, start, broken);
        if whole > start {
            scan(text, start..whole, &mut tokens)?;
            (start, length) = (whole, piece);
        } else if end == text.len() {
            return Err(broken);
        } else {
            // The token may have its end behind the piece.
            length += piece;
        }
    }
    Ok(tokens)
}

/// How far the tokens of a piece with a fault are those of the text: up to the fault, or to the `#`
/// before a quote, which may begin a character constant.
fn whole_before(text: &[u8], start: usize, broken: Broken) -> usize {
    let before = &text[start..broken.offset];
    match before {
        [.., symbol, b'#'] if is_symbolic(*symbol) => broken.offset,
        [.., b'#'] if broken.fault == Fault::Quote => broken.offset - 1,
        _ => broken.offset,
    }
}

/// The end of a piece: the last place up to a length where white space begins or ends; else the next
/// such place, or the text's end.
fn cut(text: &[u8], start: usize, length: usize) -> usize {
    let most = text.len().min(start + length);
    if most == text.len() {
        return most;
    }
    let is_border = |at: &usize| is_space(text[*at - 1]) != is_space(text[*at]);
    let last = (start + 1..=most).rev().find(is_border);
    last.or_else(|| (most..text.len()).find(is_border)).unwrap_or(text.len())
}

/// Adds the tokens of a part of a text.
fn scan(text: &[u8], part: Range<usize>, tokens: &mut Vec<Lexeme>) -> Result<(), Broken> {
    let found = diverplume::scan(&text[part.clone()]);
    let found = found.map_err(|refusal| broken(text, part.start, &refusal))?;
    let at = |range: Range<usize>| part.start + range.start..part.start + range.end;
    tokens.extend(found.iter().map(|(kind, range)| Lexeme { kind, range: at(range) }));
    Ok(())
}

fn broken(text: &[u8], start: usize, refusal: &Refusal) -> Broken {
    let offset = start + refusal.place;
    let fault = match refusal.number {
        Number::OpenComment => Fault::Comment,
        Number::NoString => Fault::Quote,
        Number::BeginsNoToken => Fault::Byte(text[offset]),
        Number::NotUtf8 => Fault::NotUtf8(Bytes::broken(&text[offset..])),
        _ => Fault::Long,
    };
    Broken { offset, fault }
}

pub(crate) fn is_space(byte: u8) -> bool {
    matches!(byte, 9..=13 | 32)
}

pub(crate) fn is_symbolic(byte: u8) -> bool {
    b"!%&$#+-/:<=>?@\\~`^|*".contains(&byte)
}

#[cfg(test)]
mod tests {
    use super::*;

    /// Texts whose tokens reach across white space, or are near it.
    const TEXTS: &[&str] = &[
        "val x = 1.5e~3 (* a (* b *) c *) ^ \"a b\\n\\   \\c\" ^ #\"\\ \\a\";",
        "  \t\n  x   y\n\n\nz...  . ..a 0x 1e5 ~ 5 ~5 ##\"a\" (*)*) *) ",
        "(**)(***)(* *)\"\"\" \"",
    ];

    fn whole(text: &[u8]) -> Vec<Lexeme> {
        let mut tokens = Vec::new();
        scan(text, 0..text.len(), &mut tokens).expect("tokens");
        tokens
    }

    #[test]
    fn pieces_have_the_tokens_of_the_whole() {
        let sample = include_str!("../../../../examples/sample.sml");
        for text in TEXTS.iter().chain([&sample]) {
            for piece in 1..100 {
                assert_eq!(
                    in_pieces(text.as_bytes(), piece),
                    Ok(whole(text.as_bytes())),
                    "{piece}"
                );
            }
        }
    }

    #[test]
    fn long_texts_have_tokens() {
        let text = format!("(*{}*)", " x".repeat(10_000)) + &"val x = (1);\n".repeat(10_000);
        let tokens = tokens(text.as_bytes()).expect("tokens");
        assert_eq!(tokens.len(), 110_001);
        assert_eq!(tokens.last().map(|token| token.range.end), Some(text.len()));
    }

    #[test]
    fn faults_are_told_at_their_place() {
        let told = |text: &str| {
            tokens(text.as_bytes()).map_err(|Broken { offset, fault }| (offset, fault))
        };
        for before in [0, 1, 4_000, 5_000, 100_000] {
            let before = ";\n".repeat(before);
            let at = before.len();
            let of = |text: &str| told(&format!("{before}{text}")).unwrap_err();
            assert_eq!(of("x (* (* *)"), (at + 2, Fault::Comment));
            assert_eq!(of("x \"a\n\""), (at + 2, Fault::Quote));
            assert_eq!(of("x \u{1}"), (at + 2, Fault::Byte(1)));
            assert_eq!(of("\u{e9}"), (at, Fault::Byte(0xC3)));
        }
        assert_eq!(told(&";".repeat(5_000)), Err((0, Fault::Long)));
        assert_eq!(told(&format!("(*{}", "x ".repeat(20_000))), Err((0, Fault::Long)));
    }
}
