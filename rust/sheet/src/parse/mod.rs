//! The parser: from words to the tree of the record, in one pass without going back.

mod adjacent;
mod atomic;
mod bind;
mod cursor;
mod dec;
mod exp;
mod fun;
mod module;
mod operators;
mod pat;
mod signature;
mod ty;

use crate::fixity::Fixities;
use crate::lex::Word;
use crate::Error;
use diverplume_record::tree::Dec;

type Parsed<T> = Result<T, Error>;

/// What formatting would lose, and where.
#[derive(Debug, Clone, PartialEq, Eq)]
pub(crate) struct Loss {
    pub(crate) offset: usize,
    pub(crate) problem: String,
}

/// The declarations of a file, and what of it formatting would lose.
pub(crate) fn file<'a>(text: &'a [u8], words: &'a [Word<'a>]) -> Parsed<(Vec<Dec>, Vec<Loss>)> {
    let fixities = Fixities::initial();
    let mut parser = Parser { text, words, at: 0, depth: 0, fixities, losses: Vec::new() };
    let decs = parser.program()?;
    Ok((decs, parser.losses))
}

struct Parser<'a> {
    text: &'a [u8],
    words: &'a [Word<'a>],
    /// The number of the next word.
    at: usize,
    /// How many forms are being read, one inside the other.
    depth: usize,
    fixities: Fixities<'a>,
    losses: Vec<Loss>,
}
