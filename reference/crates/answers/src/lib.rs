//! The answers of the unchanged Rust for a sheet, as document 01 puts them.
//!
//! - Numbers 1 to 4 come from the decoder.
//! - Numbers 0 and 6, the set and the formatted text come from `check` and `get` of 000, run over the
//!   stand-in tree; the lookups come from `comment_above` and `doc_comment_above` of 001.
//! - Numbers 13 and 14 stand for `Error::Syntax` of 000. Which of them it is, and the place, come from
//!   a copy of 000 that records each failing `?`, made by the crate `stops`: the last failure that
//!   began is the one told.
//! - Letters is the length of `get`'s text at tab size 0. Units is what the length of the text at
//!   tab size 1 has beyond that. Within the limits of a sheet both texts stay under 1 GB.
//! - Deepest comes from a copy of 000 that `build.rs` makes from the unchanged file by adding one
//!   line at the head of `Cfg::indented`. The line records the new indent, which at tab size 1 is
//!   the depth.
//! - The keyword that `comment_above` passed comes from a copy of 001, made in the same way: the line
//!   added where `saw_one` becomes true records the token.
//! - Numbers 7 to 9 are arithmetic. `get` runs at the caller's tab size only where the indents
//!   don't overflow the Rust's u32 and the text stays within a bound.
//!
//! Each answer tells which of these it came from.

use decode::{number, program, token_bound, Measures, Refusal};
use sheet::Sheet;
use sml_comment::{comment_above, doc_comment_above};
use sml_naive_fmt::{check, get, Error};
use sml_syntax::ast::{self, AstNode as _};
use sml_syntax::kind::SyntaxNode;

pub mod command_line;
mod depth;
mod keyword;

/// The comment set (document 01, module 2): bit b of word w is token 64 × w + b.
pub type CommentSet = [u64; 64];

/// A verdict: number, place, measures, set.
#[derive(Debug, Clone, Copy, PartialEq, Eq)]
pub struct Verdict {
    /// The number.
    pub number: u8,
    /// The place.
    pub place: u32,
    /// The measures; 0 for numbers other than 0, 7 and 8.
    pub measures: Measures,
    /// The comments left; empty for numbers other than 6.
    pub set: CommentSet,
}

impl Verdict {
    fn with_measures(number: u8, measures: Measures) -> Self {
        Self { number, place: 0, measures, set: [0; 64] }
    }
}

impl From<Refusal> for Verdict {
    fn from(refusal: Refusal) -> Self {
        let none = Measures::default();
        Self { place: refusal.place, ..Self::with_measures(refusal.number, none) }
    }
}

/// What an answer came from.
#[derive(Debug, Clone, Copy, PartialEq, Eq)]
pub enum Origin {
    /// The unchanged Rust, called for this answer.
    Rust,
    /// The decoder of the record.
    Decoder,
    /// Arithmetic over answers of the Rust.
    Arithmetic,
}

/// An answer and what it came from.
#[derive(Debug, Clone, PartialEq, Eq)]
pub struct Answer<T> {
    /// The answer.
    pub value: T,
    /// What it came from.
    pub origin: Origin,
}

/// The answer of formatting.
#[derive(Debug, Clone, PartialEq, Eq)]
pub struct Formatted {
    /// The verdict.
    pub verdict: Verdict,
    /// The formatted text. None where the sheet is declined, and where the text is longer than
    /// the reference's bound; then the origin is [`Origin::Arithmetic`].
    pub text: Option<String>,
}

/// The answer of a lookup.
#[derive(Debug, Clone, PartialEq, Eq)]
pub struct Lookup<T> {
    /// The number.
    pub number: u8,
    /// The place.
    pub place: u32,
    /// What was found.
    pub found: Option<T>,
}

/// What the lookup of a comment finds, by token numbers.
#[derive(Debug, Clone, Copy, PartialEq, Eq)]
pub struct Above {
    /// The comment.
    pub comment: u16,
    /// The keyword that the search passed.
    pub keyword: Option<u16>,
}

/// The Rust's answers for one sheet.
#[derive(Debug, Clone)]
pub struct Reference {
    tree: Result<Tree, Refusal>,
    text_bound: u64,
}

/// A sheet that meets none of numbers 1 to 4.
#[derive(Debug, Clone)]
struct Tree {
    root: ast::Root,
    record_length: usize,
    /// The check's verdict.
    check: Verdict,
    /// The largest depth formed before the walk ends.
    deepest: u32,
}

impl Reference {
    /// The text bound of [`Self::new`].
    pub const TEXT_BOUND: u64 = 1 << 26;

    /// The reference for a sheet.
    #[must_use]
    pub fn new(sheet: &Sheet) -> Self {
        let tree = decode::decode(&sheet.text, &sheet.record);
        let tree = tree.map(|root| Tree::new(root, sheet.record.len()));
        Self { tree, text_bound: Self::TEXT_BOUND }
    }

    /// The reference with another bound, the most bytes that `get` is asked to write at a tab size
    /// of the caller's.
    #[must_use]
    pub fn with_text_bound(self, text_bound: u64) -> Self {
        Self { text_bound, ..self }
    }

    /// The tree of a sheet that meets none of numbers 1 to 4.
    #[must_use]
    pub fn root(&self) -> Option<&ast::Root> {
        self.tree.as_ref().ok().map(|tree| &tree.root)
    }

    /// The count of tokens of a sheet that meets none of numbers 1 to 4, else 0.
    #[must_use]
    pub fn token_count(&self) -> usize {
        self.root().map_or(0, |root| root.syntax().token_count())
    }

    /// The check.
    #[must_use]
    pub fn check(&self) -> Answer<Verdict> {
        match &self.tree {
            Err(refusal) => Answer { value: Verdict::from(*refusal), origin: Origin::Decoder },
            Ok(tree) => Answer { value: tree.check, origin: Origin::Rust },
        }
    }

    /// Formatting at a tab size into an output of that length.
    #[must_use]
    pub fn get(&self, tab_size: u32, output: usize) -> Answer<Formatted> {
        match &self.tree {
            Err(refusal) => {
                let value = Formatted { verdict: Verdict::from(*refusal), text: None };
                Answer { value, origin: Origin::Decoder }
            }
            Ok(tree) if tree.check.number == number::ACCEPTED => {
                tree.get_accepted(tab_size, output, self.text_bound)
            }
            Ok(tree) => tree.get_refused(tab_size, self.text_bound),
        }
    }

    /// The lookup of the comment above a token.
    #[must_use]
    pub fn comment_above(&self, token: u64) -> Answer<Lookup<Above>> {
        self.lookup(token, |node| {
            let comment = comment_above(node)?.number();
            Some(Above { comment, keyword: keyword::passed_from(node) })
        })
    }

    /// The lookup of the doc comment above a token, into an output of that length: the doc text.
    #[must_use]
    pub fn doc_comment_above(&self, token: u64, output: usize) -> Answer<Lookup<String>> {
        let answer = self.lookup(token, doc_comment_above);
        match &answer.value.found {
            Some(text) if text.len() > output => {
                declined(number::OUTPUT_TOO_SHORT, 0, Origin::Arithmetic)
            }
            _ => answer,
        }
    }

    fn lookup<T>(
        &self,
        token: u64,
        find: impl FnOnce(&SyntaxNode) -> Option<T>,
    ) -> Answer<Lookup<T>> {
        let tree = match &self.tree {
            Err(refusal) => return declined(refusal.number, refusal.place, Origin::Decoder),
            Ok(tree) => tree,
        };
        let syntax = tree.root.syntax();
        let node = u16::try_from(token).ok().and_then(|token| syntax.with_first_token(token));
        match node {
            None => declined(token_bound(token, syntax.token_count()), 0, Origin::Arithmetic),
            Some(node) => {
                let value = Lookup { number: number::ACCEPTED, place: 0, found: find(&node) };
                Answer { value, origin: Origin::Rust }
            }
        }
    }
}

fn declined<T>(number: u8, place: u32, origin: Origin) -> Answer<Lookup<T>> {
    Answer { value: Lookup { number, place, found: None }, origin }
}

impl Tree {
    fn new(root: ast::Root, record_length: usize) -> Self {
        let deepest = depth::deepest(&root);
        let check = match check(&root) {
            Ok(()) => Verdict::with_measures(number::ACCEPTED, measures(&root, deepest)),
            Err(error) => refused(&root, &error, || stops::failures_of_check(&root)),
        };
        Self { root, record_length, check, deepest }
    }

    /// Formatting of a sheet that the check accepts.
    fn get_accepted(&self, tab_size: u32, output: usize, text_bound: u64) -> Answer<Formatted> {
        let measures = self.check.measures;
        let number = measures.bounds(tab_size, output);
        if number != number::ACCEPTED || measures.length(tab_size) > u128::from(text_bound) {
            let verdict = Verdict::with_measures(number, measures);
            return Answer { value: Formatted { verdict, text: None }, origin: Origin::Arithmetic };
        }
        self.call_get(tab_size)
    }

    /// Formatting of a sheet that the check refuses. Numbers 6, 13 and 14 come before 7 and 8, so
    /// where `get` can't run at the tab size, the check's verdict stands.
    fn get_refused(&self, tab_size: u32, text_bound: u64) -> Answer<Formatted> {
        // A command has at most six indents written, `local` with a comment above it.
        let units = 6 * self.record_length as u64 * u64::from(self.deepest);
        let most = Measures { deepest: self.deepest, letters: 0, units };
        let fits = most.bounds(tab_size, usize::MAX) == number::ACCEPTED;
        if fits && most.length(tab_size) <= u128::from(text_bound) {
            return self.call_get(tab_size);
        }
        let value = Formatted { verdict: self.check, text: None };
        Answer { value, origin: Origin::Arithmetic }
    }

    fn call_get(&self, tab_size: u32) -> Answer<Formatted> {
        let value = match get(&self.root, tab_size) {
            Ok(text) => Formatted {
                verdict: Verdict::with_measures(number::ACCEPTED, self.check.measures),
                text: Some(text),
            },
            Err(error) => {
                let failures = || stops::failures_of_get(&self.root, tab_size);
                Formatted { verdict: refused(&self.root, &error, failures), text: None }
            }
        };
        Answer { value, origin: Origin::Rust }
    }
}

/// The measures of a tree that the check accepts.
fn measures(root: &ast::Root, deepest: u32) -> Measures {
    let length = |tab_size| get(root, tab_size).map_or(0, |text| text.len() as u64);
    let letters = length(0);
    Measures { deepest, letters, units: length(1).saturating_sub(letters) }
}

/// The verdict of a refusal by the Rust; `failures` are those of the walk that is refused.
fn refused(
    root: &ast::Root,
    error: &Error,
    failures: impl FnOnce() -> Vec<stops::Failure>,
) -> Verdict {
    let Error::Comments(ranges) = error else {
        let stop = stops::told(&failures()).expect("the copy of 000 stops as 000 does");
        let number = if stop.is_import { number::IMPORT } else { number::MISSING };
        let verdict = Verdict::with_measures(number, Measures::default());
        return Verdict { place: stop.place, ..verdict };
    };
    let mut verdict = Verdict::with_measures(number::COMMENTS_LEFT, Measures::default());
    verdict.place = ranges.iter().map(|range| range.start()).min().unwrap_or(0);
    let tokens = root.syntax().descendants_with_tokens();
    for token in tokens.filter_map(|element| element.into_token()) {
        if ranges.contains(&token.text_range()) {
            let at = usize::from(token.number());
            verdict.set[at / 64] |= 1 << (at % 64);
        }
    }
    verdict
}

/// What the program prints for an input.
#[must_use]
pub fn program_output(input: &[u8]) -> Vec<u8> {
    let Some(input) = program::Input::parse(input) else {
        return program::line(number::TOO_LONG, 0, Measures::default()).into_bytes();
    };
    let sheet = Sheet { text: input.text.to_vec(), record: input.record.to_vec() };
    let Formatted { verdict, text } =
        Reference::new(&sheet).get(input.tab_size, program::OUTPUT).value;
    let mut output = program::line(verdict.number, verdict.place, verdict.measures).into_bytes();
    output.extend(text.unwrap_or_default().into_bytes());
    output
}
