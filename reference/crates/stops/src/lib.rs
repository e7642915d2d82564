//! Where the walk of 000 stops: its sites, at which it leaves a function or a closure early. These are
//! each `?`, and the import.
//!
//! `build.rs` copies 000 with `x.site(n)?` in place of each `x?`; the copy records each n that fails.
//! A *stop* (a term of this crate) is a site at which a failure begins: the value before the `?` is
//! what an accessor or a list gave, or it is the import. The other sites hand a failure on: the value
//! is the answer of a function of the walk. Each stop that is reached is recorded with its place, what
//! the accessor or list missed in the record, or the import.

mod table;

pub use table::{Missing, STOPS};

use sml_syntax::ast;
use sml_syntax::kind::SyntaxNode;
use sml_syntax::tree::missed;
use std::any::TypeId;
use std::cell::RefCell;

include!(concat!(env!("OUT_DIR"), "/module.rs"));

/// Where a site stands in 000.
#[derive(Debug, Clone, Copy, PartialEq, Eq)]
pub struct Place {
    /// The line.
    pub line: usize,
    /// The line's text before the `?`, or up to the import's `None`.
    pub before: &'static str,
}

impl Place {
    /// The method or the variable right before the `?`; none where that is a call with arguments
    /// or a closing brace, which hands on a failure.
    #[must_use]
    pub fn part(&self) -> Option<&'static str> {
        let part = self.before.strip_suffix("()").unwrap_or(self.before);
        let word = part.rsplit(|c: char| !c.is_ascii_alphanumeric() && c != '_').next()?;
        (!word.is_empty()).then_some(word)
    }

    /// Whether the site can't fail: `descendants_with_tokens` gives tokens alone, a token has at
    /// least one byte, and names that are items of a list are always there.
    #[must_use]
    pub fn never_fails(&self) -> bool {
        ["x.into_token()", ".bytes().next()", "names_space(st, dec.name_star_eqs())"]
            .iter()
            .any(|end| self.before.ends_with(end))
    }

    /// Whether a failure can begin here.
    #[must_use]
    pub fn is_stop(&self) -> bool {
        self.part().is_some() && !self.never_fails()
    }
}

/// For each site of [`SITES`] what it misses, where it is a stop.
pub fn missing() -> impl Iterator<Item = (&'static Place, Option<Missing>)> {
    let mut stops = STOPS.iter().copied();
    SITES.iter().map(move |place| (place, place.is_stop().then(|| stops.next()).flatten()))
}

/// A site that failed.
#[derive(Debug, Clone, Copy, PartialEq, Eq)]
pub struct Failure {
    /// The site's number in [`SITES`].
    pub site: usize,
    /// The stop, where the failure begins here.
    pub stop: Option<Stop>,
}

/// Where a failure begins.
#[derive(Debug, Clone, Copy, PartialEq, Eq, Hash)]
pub struct Stop {
    /// The offset in the record: of the import's command, of the absent part's, or of the list's
    /// that has no first item.
    pub place: u32,
    /// Whether it is an import.
    pub is_import: bool,
}

thread_local! {
    static FAILED: RefCell<Vec<Failure>> = const { RefCell::new(Vec::new()) };
}

fn record(site: usize, stop: Option<Stop>) {
    FAILED.with_borrow_mut(|failed| failed.push(Failure { site, stop }));
}

/// What records a failure.
trait Site: Sized {
    /// Records the site if this is a failure.
    fn site(self, site: usize) -> Self;
}

impl<T: 'static> Site for Option<T> {
    fn site(self, site: usize) -> Self {
        if self.is_none() {
            // A function of the walk answers `Option<()>`; any other option is what was asked of the
            // tree just before.
            let is_of_walk = TypeId::of::<T>() == TypeId::of::<()>();
            let stop = Stop { place: missed(), is_import: false };
            record(site, (!is_of_walk).then_some(stop));
        }
        self
    }
}

impl<T, E> Site for Result<T, E> {
    fn site(self, site: usize) -> Self {
        if self.is_err() {
            record(site, None);
        }
        self
    }
}

/// Records the stop at an import. Called by the copy.
fn imported(dec: &SyntaxNode, site: usize) -> Option<()> {
    record(site, Some(Stop { place: dec.offset_in_record(), is_import: true }));
    None
}

/// The sites that fail in `check` over this tree, in order.
#[must_use]
pub fn failures_of_check(root: &ast::Root) -> Vec<Failure> {
    // Only the failures count here; the refusal comes from the unchanged file.
    let _ = with_sites::check(root);
    FAILED.take()
}

/// The sites that fail in `get` over this tree, in order.
#[must_use]
pub fn failures_of_get(root: &ast::Root, tab_size: u32) -> Vec<Failure> {
    // Only the failures count here; text and refusal come from the unchanged file.
    let _ = with_sites::get(root, tab_size);
    FAILED.take()
}

/// The stop that the refusal of a walk comes from: the last one that began. After it the walk asks
/// nothing of the tree, each site hands the failure on. A walk that is not refused has none.
#[must_use]
pub fn told(failures: &[Failure]) -> Option<Stop> {
    failures.iter().rev().find_map(|failure| failure.stop)
}
