//! Changed copies of 000, and the generated sheets that tell them apart from 000.
//!
//! [`package::write`] makes a package with one module for each change; its program calls
//! [`judge::run`] with the walks of all copies.

pub mod judge;
pub mod package;
pub mod report;
mod shrink;
mod table;

pub use table::{Mutation, MUTATIONS};
