//! A seeded generator of sheets and calls, and what a run of them reaches.
//!
//! [`Generator::case`] gives the case of a number under a seed: a sheet, and the parameters of the
//! calls on it. Most sheets are grammar-directed, driven by the schema; three in ten of them are
//! damaged in one place, each kind of damage with a name. [`Coverage`] counts what a run reaches.

mod accents;
mod case;
mod commands;
mod course;
mod coverage;
mod damage;
mod goals;
mod grammar;
mod limits;
mod odd;
mod rng;
mod shape;
mod style;
mod told;
mod words;
mod write;

pub use accents::accented;
pub use case::{Calls, Case, Generator, Room};
pub use commands::{commands, Command, Role};
pub use coverage::{goals, Coverage, Goal};
pub use damage::Damage;
pub use rng::Rng;
pub use shape::is_required;
pub use style::Size;
