//! Writes the sheets that `diverplume` formats.
//!
//! A [`Sheet`] is a text and a *record*: the text's tokens and its syntax tree as a run of bytes.
//! [`SheetBuilder`] takes the tokens in the order of the text, white space and comments too; each
//! call gives the [`Token`] that the tree names. The tree is made of the types of [`tree`], one for
//! each node, with a method for each field:
//!
//! ```
//! use diverplume_record::tree::{ConPat, Dec, EqExp, Path, SConExp, ValBind, ValDec};
//! use diverplume_record::SheetBuilder;
//!
//! let mut sheet = SheetBuilder::new();
//! let [val, _, x, _, _, _, one] = sheet.words(["val", " ", "x", " ", "=", " ", "1"]);
//! let bind = ValBind::new()
//!     .pat(ConPat::new().path(Path::named([x])))
//!     .eq_exp(EqExp::of(SConExp::of(one)));
//! let dec = ValDec::of([bind]).first(val);
//! let sheet = sheet.finish([Dec::one(dec)])?;
//! assert_eq!(sheet.text, b"val x = 1");
//! assert_eq!(sheet.record.len(), 66);
//! # Ok::<(), diverplume_record::BuildError>(())
//! ```
//!
//! A field that is not set is absent, a list that is not set is empty. A declaration has to say its
//! first token, because the comment above it is looked for from there; the compiler refuses one
//! without it:
//!
//! ```compile_fail
//! use diverplume_record::tree::{Dec, HoleDec};
//! let dec = Dec::one(HoleDec::new());
//! ```
//!
//! [`SheetBuilder::finish`] checks the limits of a sheet, so what it gives is never refused as too
//! long, malformed or too deep.

mod build;
mod bytes;
mod describe;
mod error;
mod input;
mod kind;
mod nodes;
mod position;
mod schema;
mod stop;
mod tokens;
pub mod tree;

pub use build::SheetBuilder;
pub use bytes::Bytes;
pub use describe::{node, NodeDescription, PartDescription, Token};
pub use error::{BuildError, Problem};
pub use input::Input;
pub use kind::SyntaxKind;
pub use position::Position;
pub use schema::{command, limit, Choice, Family, Field, FieldKind, Node, Part};
pub use stop::Stop;

/// A sheet: a text, and a record of its tokens and its syntax tree.
///
/// Any bytes may stand in both; a check tells whether they fit.
#[derive(Debug, Clone, PartialEq, Eq, Hash, Default)]
pub struct Sheet {
    /// The text.
    pub text: Vec<u8>,
    /// The record.
    pub record: Vec<u8>,
}
