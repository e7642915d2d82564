//! Sheets with characters that are not ASCII.

use crate::damage::Damage;
use crate::rng::Rng;
use schema::{command, SyntaxKind};
use sheet::Sheet;

/// White space, and characters that are near it: by their bytes, by their place in Unicode, or
/// because they had the property once.
const EDGES: &[&str] = &[
    "",
    "",
    " ",
    "\t",
    "\u{85}",
    "\u{a0}",
    "\u{1680}",
    "\u{2000}",
    "\u{2005}",
    "\u{200a}",
    "\u{2028}",
    "\u{2029}",
    "\u{202f}",
    "\u{205f}",
    "\u{3000}",
    "\u{1f}",
    "\u{84}",
    "\u{86}",
    "\u{e0}",
    "\u{c5}",
    "\u{180e}",
    "\u{200b}",
    "\u{2027}",
    "\u{202a}",
    "\u{2060}",
    "\u{3001}",
    "\u{feff}",
    "\u{e9}",
    "\u{20ac}",
    "\u{1f600}",
    "\u{10ffff}",
];

/// Kinds of damage to which characters of several bytes matter.
const DAMAGES: &[Damage] =
    &[Damage::TokenLength, Damage::TextByte, Damage::TextShorter, Damage::TokenDropped];

/// The sheet with accents: at the ends of most comments, in some other tokens. The tree stays. One
/// sheet in four is damaged besides.
#[must_use]
pub fn accented(sheet: &Sheet, rng: &mut Rng) -> Sheet {
    let (mut text, mut record) = (Vec::new(), Vec::new());
    let (mut rest, mut tree) = (&sheet.text[..], &sheet.record[..]);
    while let [command::TOKEN, kind, low, high, behind @ ..] = tree {
        let length = usize::from(u16::from_le_bytes([*low, *high]));
        let Some((token, more)) = rest.split_at_checked(length) else { break };
        let token = with_accents(*kind, token, rng);
        let Ok(length) = u16::try_from(token.len()) else { break };
        record.extend([command::TOKEN, *kind]);
        record.extend(length.to_le_bytes());
        text.extend(token);
        (rest, tree) = (more, behind);
    }
    text.extend(rest);
    record.extend(tree);
    let accented = Sheet { text, record };
    let damaged = rng.chance(1, 4).then(|| rng.pick(DAMAGES).apply(&accented, rng));
    damaged.flatten().unwrap_or(accented)
}

/// A token's text with accents.
fn with_accents(kind: u8, token: &[u8], rng: &mut Rng) -> Vec<u8> {
    let edge = |rng: &mut Rng, share| match rng.chance(share, 16) {
        true => (0..rng.from_to(1, 3)).map(|_| rng.pick(EDGES)).collect(),
        false => String::new(),
    };
    let share = if kind == SyntaxKind::BlockComment.number() { 12 } else { 1 };
    let (before, behind) = (edge(rng, share), edge(rng, share));
    [before.as_bytes(), token, behind.as_bytes()].concat()
}
