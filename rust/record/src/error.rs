//! What the builder refuses.

use crate::{limit, Bytes, FieldKind, Node};
use std::fmt;

/// A description that is no sheet.
#[derive(Debug, Clone, PartialEq, Eq)]
pub struct BuildError {
    /// The fields and list items from the root to the place, as in `decs[0].dec_with_tail`; empty
    /// for a token of the text, or for the record as a whole.
    pub at: String,
    /// What is wrong there.
    pub problem: Problem,
    /// The text offset of the token that is wrong, or of the declaration in which a part of the
    /// tree is; none for the record as a whole.
    pub offset: Option<usize>,
}

/// What is wrong with a description.
#[derive(Debug, Clone, PartialEq, Eq)]
pub enum Problem {
    /// No node has this name.
    UnknownNode(String),
    /// The node has no field of this name.
    UnknownField(Node, String),
    /// The node is given this field twice.
    FieldTwice(Node, &'static str),
    /// A part of another kind than the field has.
    Unfitting {
        /// The field's kind in the schema.
        expected: FieldKind,
        /// The part that was given.
        found: String,
    },
    /// A first token on a node that is no declaration.
    FirstToken(Node),
    /// A token number that isn't below the count.
    UnknownToken(u32),
    /// A list with more items than a u16 counts.
    LongList(usize),
    /// A token of no bytes; its number.
    EmptyToken(usize),
    /// A token longer than a u16 counts; its number.
    LongToken(usize),
    /// A token past the last that a sheet may have, or that its record can name; its number.
    TooManyTokens(usize),
    /// A token that ends past the longest text; its number.
    LongText(usize),
    /// A token with a broken character, or that ends inside one; its number and the bytes there.
    NotUtf8(usize, Bytes),
    /// A form inside too many others.
    TooDeep(Node),
    /// A record over the limit; its length.
    LongRecord(usize),
}

impl BuildError {
    /// An error that no place in the tree has.
    pub(crate) fn on_the_whole(problem: Problem, offset: Option<usize>) -> Self {
        Self { at: String::new(), problem, offset }
    }
}

impl fmt::Display for BuildError {
    fn fmt(&self, f: &mut fmt::Formatter<'_>) -> fmt::Result {
        if self.at.is_empty() {
            self.problem.fmt(f)
        } else {
            write!(f, "at {}: {}", self.at, self.problem)
        }
    }
}

impl std::error::Error for BuildError {}

impl fmt::Display for Problem {
    fn fmt(&self, f: &mut fmt::Formatter<'_>) -> fmt::Result {
        match self {
            Self::UnknownNode(name) => write!(f, "no node is named {name}"),
            Self::UnknownField(node, field) => {
                let known: Vec<_> = node.fields().iter().map(|field| field.accessor).collect();
                let node = node.name();
                write!(f, "{node} has no field {field}, its fields are [{}]", known.join(", "))
            }
            Self::FieldTwice(node, field) => write!(f, "{} has {field} twice", node.name()),
            Self::Unfitting { expected, found } => {
                write!(f, "the field is a {expected}, not {found}")
            }
            Self::FirstToken(node) => {
                write!(f, "{} is no declaration and has no first token", node.name())
            }
            Self::UnknownToken(number) => write!(f, "the text has no token {number}"),
            Self::LongList(count) => write!(f, "a list of {count} items is over 65,535"),
            Self::EmptyToken(number) => write!(f, "token {number} is empty"),
            Self::LongToken(number) => write!(f, "token {number} is over 65,535 bytes"),
            Self::TooManyTokens(number) => {
                write!(f, "token {number} is one too many, a sheet has at most {}", limit::TOKENS)
            }
            Self::LongText(number) => {
                let most = limit::TEXT;
                write!(f, "token {number} ends past the longest text of {most} bytes")
            }
            Self::NotUtf8(number, bytes) => {
                write!(f, "token {number} has {bytes}, which is no character in UTF-8")
            }
            Self::TooDeep(node) => {
                let (node, most) = (node.name(), limit::FORMS);
                write!(f, "{node} stands inside {most} forms, the most there may be")
            }
            Self::LongRecord(length) => {
                write!(f, "the record has {length} bytes, the most is {}", limit::RECORD)
            }
        }
    }
}
