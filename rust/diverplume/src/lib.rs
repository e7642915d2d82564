//! A formatter for Standard ML rule files that is proved: safe calls into its archive.
//!
//! The calls take a *sheet*, a text and a record of its tokens and syntax tree, as two slices. The
//! module [`record`] writes such sheets.
//!
//! ```
//! use diverplume::record::tree::{ConPat, Dec, EqExp, IfExp, Path, PathExp, ValBind, ValDec};
//! use diverplume::record::SheetBuilder;
//!
//! // The tokens in the order of the text, then the tree that names them.
//! let mut sheet = SheetBuilder::new();
//! let [val, _, x, _, _, _] = sheet.words(["val", " ", "x", " ", "=", " "]);
//! let [_, _, a, _, _, _, b, _, _, _, c] =
//!     sheet.words(["if", " ", "a", " ", "then", " ", "b", " ", "else", " ", "c"]);
//! let name = |token| PathExp::new().path(Path::named([token]));
//! let bind = ValBind::new()
//!     .pat(ConPat::new().path(Path::named([x])))
//!     .eq_exp(EqExp::of(IfExp::new().cond(name(a)).yes(name(b)).no(name(c))));
//! let sheet = sheet.finish([Dec::one(ValDec::of([bind]).first(val))])?;
//!
//! let text = diverplume::format(&sheet.text, &sheet.record, 2)?;
//! assert_eq!(text, b"val x =\n  if a then\n    b\n  else\n    c");
//! # Ok::<(), Box<dyn std::error::Error>>(())
//! ```
//!
//! Any bytes may be handed in. A call ends on all of them, refuses by number what it can't take,
//! and changes the lent output only where it accepts. A [`Verdict`] says in words what was refused,
//! where, and what to do:
//!
//! ```
//! let verdict = diverplume::check(b"val x", &[0x05, 4, 3, 0, 0x05, 0, 1, 0]);
//! assert_eq!(
//!     verdict.to_string(),
//!     "refused (3): the record is malformed at offset 8, its end: the tokens cover 4 of the text's \
//!      5 bytes; write the record again, for example with diverplume::record"
//! );
//! ```
//!
//! [`scan`] gives the tokens of a text, for a parser that has none of its own:
//!
//! ```
//! let tokens = diverplume::scan(b"op :: ")?;
//! let ranges: Vec<_> = tokens.iter().map(|(_, range)| range).collect();
//! assert_eq!(ranges, [0..2, 2..3, 3..5, 5..6]);
//! let refusal = diverplume::scan(b"val x =\n  (* why").unwrap_err();
//! assert_eq!(
//!     refusal.to_string(),
//!     "refused (10): the comment that opens at line 2, column 3 of the text (offset 10) has no end; \
//!      close it, and each comment inside it, with *)"
//! );
//! # Ok::<(), diverplume::Refusal>(())
//! ```
//!
//! The archive is what `tools/build diverplume` makes in the repository's root; the variable
//! `DIVERPLUME_ARCHIVE` may name another place of it.

mod calls;
mod message;
mod scan;
mod verdict;

pub use calls::{check, comment_above, doc_comment_above, format, get};
pub use diverplume_record as record;
pub use scan::{scan, scan_into, Refusal, TokenRanges, Tokens};
pub use verdict::{CommentAbove, CommentSet, Comments, Lookup, Measures, Number, Verdict};
