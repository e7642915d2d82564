//! The lettered sheets of document 01, sheets on which calls take long or nest deep, and the builder
//! that they are written with.

pub mod lettered;
pub mod parts;
pub mod worst;

pub use schema::{node, NodeDescription, PartDescription, Sheet, SheetBuilder, Token};
