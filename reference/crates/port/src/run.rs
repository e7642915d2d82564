//! The comparison at scale: the cases of a seed.

use crate::compare::{compare, Difference, Work};
use crate::count::Compared;
use crate::parallel::in_parallel;
use generate::{accented, Case, Generator, Rng};
use std::fmt;

/// Comments are looked up at every token, doc comments too on 24 sheets in 25.
const WORK: Work = Work { docs: 1_000_000, ..Work::ALL };

/// A case on which port and reference differ.
#[derive(Debug, Clone, PartialEq, Eq)]
pub struct Differing {
    /// The case.
    pub case: Case,
    /// The difference.
    pub difference: Difference,
}

impl fmt::Display for Differing {
    fn fmt(&self, f: &mut fmt::Formatter<'_>) -> fmt::Result {
        write!(f, "{}: {}", self.case, self.difference)
    }
}

/// Compares the first cases of a seed on all processors.
///
/// # Errors
///
/// A case that differs: of those found before the threads stopped, the first.
pub fn run(seed: u64, cases: u64) -> Result<Compared, Box<Differing>> {
    in_parallel(cases, |index| {
        let case = Generator::new(seed).case(index);
        compare(&case.sheet, WORK).map_err(|difference| Box::new(Differing { case, difference }))
    })
}

/// Compares the first cases of a seed with accents in their texts, on all processors.
///
/// # Errors
///
/// A case that differs, with the accents in the difference: of those found before the threads
/// stopped, the first.
pub fn run_accented(seed: u64, cases: u64) -> Result<Compared, Box<Differing>> {
    in_parallel(cases, |index| {
        let case = Generator::new(seed).case(index);
        let sheet = accented(&case.sheet, &mut Rng::new(seed, index));
        compare(&sheet, WORK).map_err(|difference| Box::new(Differing { case, difference }))
    })
}
