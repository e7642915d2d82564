//! Texts to scan: short ones, all of them, and others by seed and number.

use generate::Rng;

/// A rule file.
const RULES: &[u8] = include_bytes!("../../../../examples/sample.sml");

/// Bytes that tell the classes of tokens apart.
pub const TELLING: &[u8; 25] = b" \n\"#'()*.09;=E\\^_adeowx~\x7F";

/// Bytes that tell escapes apart.
pub const ESCAPES: &[u8; 14] = b" \n\"\\^@_afgu025";

/// Pieces that tokens are made of.
const PIECES: &[&str] = &[
    " ",
    "\n",
    "\t  ",
    "(*",
    "*)",
    "(",
    ")",
    "*",
    "\"",
    "\\",
    "\"a\"",
    "\"\"",
    "#",
    "#\"",
    "#\"x\"",
    "\\n",
    "\\^A",
    "\\065",
    "\\256",
    "\\u00e9",
    "\\u0100",
    "\\  \\",
    "\\\n",
    "~",
    "0",
    "1",
    "25",
    "0x",
    "0w",
    "0wx",
    "1F",
    ".",
    "...",
    "e",
    "E",
    "e~5",
    "1.5",
    "x",
    "val",
    "and",
    "include",
    "do",
    "infix",
    "r",
    "'",
    "'a",
    "_",
    "A.b",
    ";",
    ",",
    "[",
    "]",
    "{",
    "}",
    "=",
    "=>",
    ":>",
    "::",
    "|",
    "\0",
    "\u{7f}",
    "\u{e9}",
    "(*\u{e0}*)",
    "\u{a0}",
    "\u{3000}",
    "\u{10ffff}",
];

/// Every text of `length` bytes over some bytes that starts with the bytes of `head`.
pub fn every(head: &[u8], bytes: &[u8], length: usize) -> impl Iterator<Item = Vec<u8>> {
    let free = length - head.len();
    let count = bytes.len().pow(u32::try_from(free).expect("a short text"));
    let (head, bytes) = (head.to_vec(), bytes.to_vec());
    (0..count).map(move |mut number| {
        let mut text = head.clone();
        for _ in 0..free {
            text.push(bytes[number % bytes.len()]);
            number /= bytes.len();
        }
        text
    })
}

/// A text of a seed. It depends on the seed and the index alone.
#[must_use]
pub fn text(seed: u64, index: u64) -> Vec<u8> {
    let mut rng = Rng::new(seed, index);
    match rng.below(100) {
        0..60 => pieces(&mut rng),
        60..90 => damaged(&mut rng),
        90..95 => bytes(&mut rng, 128),
        95..99 => bytes(&mut rng, 256),
        _ => repeated(&mut rng),
    }
}

/// Pieces in any order.
fn pieces(rng: &mut Rng) -> Vec<u8> {
    let count = rng.from_to(1, 24);
    (0..count).flat_map(|_| rng.pick(PIECES).bytes()).collect()
}

/// Bytes below a bound.
fn bytes(rng: &mut Rng, end: usize) -> Vec<u8> {
    let count = rng.from_to(0, 40);
    (0..count).map(|_| rng.below(end).to_le_bytes()[0]).collect()
}

/// A part of a rule file with some bytes taken away, put in or replaced by pieces.
fn damaged(rng: &mut Rng) -> Vec<u8> {
    let start = rng.below(RULES.len());
    let end = rng.from_to(start, RULES.len().min(start + 400));
    let mut text = RULES[start..end].to_vec();
    for _ in 0..rng.below(5) {
        let at = rng.below(text.len() + 1);
        let behind = rng.from_to(at, text.len().min(at + 3));
        text.splice(at..behind, rng.pick(PIECES).bytes());
    }
    text
}

/// Two pieces again and again: long tokens, now and then more tokens than there may be.
fn repeated(rng: &mut Rng) -> Vec<u8> {
    let parts = [rng.pick(PIECES), rng.pick(PIECES)].concat();
    let most = if rng.chance(1, 40) { 3_000 } else { 60 };
    let mut text = rng.pick(PIECES).as_bytes().to_vec();
    text.extend(parts.repeat(rng.from_to(1, most)).bytes());
    text.extend(rng.pick(PIECES).bytes());
    text
}
