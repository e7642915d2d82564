//! Stand-in for the syntax tree that 000 and 001 read, with just what they use.
//!
//! A [`tree::Tree`] is an arena built from a decoded record. The typed handles of [`ast`] and the
//! nodes and tokens of [`kind`] are a reference count of the arena and an index; no accessor
//! copies a subtree.

pub mod ast;
pub mod kind;
pub mod tree;
