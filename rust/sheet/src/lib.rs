//! Parses Standard ML and makes sheets from it.
//!
//! The language is that of the grammar in The Definition of Standard ML (Revised), sections 2 and 3
//! and appendices A and B: modules and derived forms included. Fixity directives have the scope that the
//! Definition gives them; operators of the Basis are infix from the start.
//!
//! More is parsed than that:
//!
//! - of Successor ML the forms for which there is a layout: or-patterns inside brackets, vectors
//!   `#[..]` as expressions and patterns, `do`, a pattern before `as`, rows of an expression without
//!   a value, `op andalso` and `op orelse`, a first bar, `withtype` in a specification;
//! - `where` of structures; among specifications `open`, fixity directives, `structure S = T`,
//!   `exception E = F`, and `op` before a name behind `val`;
//! - structures, signatures and functors wherever a declaration may stand;
//! - `...` for an expression, type, declaration or specification, and `_` for an expression or type
//!   that is left open.
//!
//! No rule about names or types is checked: neither the syntactic restrictions of the Definition
//! (sections 2.9 and 3.5) nor that the clauses of a function have one name. `import` is no
//! declaration here, although a record has a form for it.
//!
//! ```
//! let sheet = diverplume_sheet::sheet("(* why *)\nval late = true")?;
//! assert_eq!(sheet.text, b"(* why *)\nval late = true");
//! let error = diverplume_sheet::sheet("val late\n  = then").unwrap_err();
//! assert_eq!(error.to_string(), "2:5: an expression is expected, not \"then\"");
//! # Ok::<(), diverplume_sheet::Error>(())
//! ```
//!
//! What the layouts would lose is refused in words:
//!
//! ```
//! let error = diverplume_sheet::sheet("val 'a x = []").unwrap_err();
//! assert_eq!(
//!     error.to_string(),
//!     "1:5: type variables behind \"val\" would be lost; annotate the pattern instead"
//! );
//! ```

mod above;
mod error;
mod fixity;
mod judge;
mod lex;
mod parse;
mod tree;

pub use above::{Above, Stray};
pub use error::{Error, Position, Reason};
pub use judge::{judge, Change};
pub use tree::{Declaration, Difference};

use diverplume_record::tree::{Dec, Root};
use diverplume_record::{Sheet, SheetBuilder};
use lex::Lexeme;
use parse::Loss;

/// The sheet of a text.
///
/// # Errors
///
/// If the text is no Standard ML, has something that formatting would lose, or is past the limits
/// of a sheet.
pub fn sheet(text: impl AsRef<[u8]>) -> Result<Sheet, Error> {
    File::parse(text.as_ref())?.sheet()
}

/// A builder with the text's tokens, and its declarations.
///
/// # Errors
///
/// If the text is no Standard ML.
pub fn tokens_and_tree(text: impl AsRef<[u8]>) -> Result<(SheetBuilder, Vec<Dec>), Error> {
    let text = text.as_ref();
    let tokens = lex::tokens(text).map_err(|broken| Error::of_tokens(text, broken))?;
    let (decs, _) = parse::file(text, &lex::words(text, &tokens))?;
    Ok((builder(text, &tokens), decs))
}

/// A builder with these tokens.
fn builder(text: &[u8], tokens: &[Lexeme]) -> SheetBuilder {
    let mut builder = SheetBuilder::new();
    for token in tokens {
        builder.token(token.kind, &text[token.range.clone()]);
    }
    builder
}

/// A text with its tokens and its tree.
#[derive(Debug)]
pub struct File<'a> {
    text: &'a [u8],
    tokens: Vec<Lexeme>,
    root: Root,
    losses: Vec<Loss>,
}

impl<'a> File<'a> {
    /// Parses a text, of any length.
    ///
    /// # Errors
    ///
    /// If the text is no Standard ML, or has too many forms inside one another.
    pub fn parse(text: &'a [u8]) -> Result<Self, Error> {
        let tokens = lex::tokens(text).map_err(|broken| Error::of_tokens(text, broken))?;
        let (decs, losses) = parse::file(text, &lex::words(text, &tokens))?;
        Ok(Self { text, tokens, root: Root::of(decs), losses })
    }

    /// What formatting would lose, in the order of the text.
    pub fn losses(&self) -> impl Iterator<Item = Error> + '_ {
        self.losses.iter().map(|loss| Error {
            at: Position::of(self.text, loss.offset),
            reason: Reason::Loss,
            problem: loss.problem.clone(),
        })
    }

    /// The sheet of the text.
    ///
    /// # Errors
    ///
    /// If formatting would lose something, or the sheet is past a limit.
    pub fn sheet(&self) -> Result<Sheet, Error> {
        if let Some(loss) = self.losses().next() {
            return Err(loss);
        }
        let sheet = builder(self.text, &self.tokens).finish_fused(&self.root);
        sheet.map_err(|error| Error::of_build(self.text, &error))
    }
}
