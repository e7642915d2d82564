//! The kinds of tokens.

/// The words with a kind of their own, from kind 2 on, in the order of 001.
pub const WORDS: [&str; 19] = [
    "...",
    "and",
    "val",
    "fun",
    "type",
    "eqtype",
    "datatype",
    "abstype",
    "exception",
    "open",
    "infix",
    "infixr",
    "nonfix",
    "do",
    "local",
    "structure",
    "signature",
    "functor",
    "include",
];

/// The kind of a token by its text: 1 for a comment, 2 to 20 for the words, else 0.
#[must_use]
pub fn kind(token: &[u8]) -> u8 {
    if token.starts_with(b"(*") {
        return 1;
    }
    let word = (2..).zip(WORDS).find(|(_, word)| word.as_bytes() == token);
    word.map_or(0, |(kind, _)| kind)
}
