//! Sheets at the limits of text, tokens and record.

use crate::grammar::Grammar;
use crate::rng::Rng;
use crate::style::Size;
use crate::write::Writer;
use schema::{command, Family, Node, SyntaxKind};
use sheet::Sheet;

/// A grammar-directed sheet of this size.
pub(crate) fn sheet(rng: &mut Rng, size: Size) -> Sheet {
    let mut grammar = Grammar::new(rng, size);
    if matches!(size, Size::Text(_)) && grammar.out.rng.chance(1, 3) {
        long_comment(&mut grammar.out);
    }
    grammar.root();
    let mut out = grammar.out;
    out.name_any_tokens();
    match size {
        Size::Text(length) => pad_text(&mut out, length),
        Size::Tokens(count) => pad_tokens(&mut out, count),
        Size::Record(length) => pad_record(&mut out, length),
        Size::Small | Size::Medium | Size::Wide(_) | Size::Deep(_) => {}
    }
    out.finish()
}

/// Appends a comment of several thousand bytes.
fn long_comment(out: &mut Writer<'_>) {
    let inside = "a\n ".repeat(out.rng.from_to(1_000, 4_000));
    out.word(SyntaxKind::BlockComment, &format!("(*{inside}*)"));
}

/// Appends white space until the text has this many bytes.
fn pad_text(out: &mut Writer<'_>, length: usize) {
    while out.text_length() < length {
        let left = length - out.text_length();
        let part = if out.rng.chance(1, 2) { left } else { out.rng.from_to(1, left) };
        let byte = out.rng.pick(b" \n\t");
        out.token(SyntaxKind::Other, &vec![byte; part]);
    }
}

/// Appends tokens of one byte until the text has this many.
fn pad_tokens(out: &mut Writer<'_>, count: usize) {
    while out.token_count() < count {
        let kind = out.rng.pick(&[SyntaxKind::Other, SyntaxKind::Other, SyntaxKind::ValKw]);
        out.token(kind, b";");
    }
}

/// Appends a `NonfixDec` of as many names as the record needs to have this many bytes. A name has
/// three bytes, so up to two tokens of four bytes each come first.
fn pad_record(out: &mut Writer<'_>, length: usize) {
    // A Dec, a DecWithTail, a list of one DecInSeq, the NonfixDec, and a list behind these; then
    // an absent semicolon, an empty list, another absent semicolon.
    let frame = 1 + 1 + 3 + 1 + 3 + 3 + 1 + 3 + 1;
    out.token(SyntaxKind::Other, b"x");
    let left = length - out.record_length() - frame;
    for _ in 0..left % 3 {
        out.token(SyntaxKind::Other, b" ");
    }
    let names = (length - out.record_length() - frame) / 3;
    let decs = u16::from_le_bytes([out.tree[1], out.tree[2]]);
    out.set_operand(0, usize::from(decs) + 1);
    out.tree.extend([command::GROUP, command::GROUP, command::LIST, 1, 0, command::GROUP]);
    let nonfix = Family::DecOne.command(Node::NonfixDec).expect("a declaration");
    out.with_token(nonfix, usize::from(command::NO_TOKEN));
    let at = out.tree.len();
    out.tree.extend([command::LIST, 0, 0]);
    out.set_operand(at, names);
    for _ in 0..names {
        let number = out.rng.below(out.token_count().min(40));
        out.with_token(command::TOKEN_REF, number);
    }
    let absent = command::ABSENT;
    out.tree.extend([absent, command::LIST, 0, 0, absent]);
}
