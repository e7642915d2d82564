//! Runs the changed copies on generated sheets.

use crate::report;
use crate::shrink::shrink;
use answers::Reference;
use decode::number;
use generate::Generator;
use sheet::Sheet;
use sml_syntax::ast::Root;
use std::cell::Cell;
use std::panic::{catch_unwind, set_hook, AssertUnwindSafe};
use std::thread;

/// The tab size of `get`: over 1, so that a depth and an indent differ.
pub const TAB_SIZE: u32 = 3;
/// The seed of the sheets.
pub const SEED: u64 = 1;
/// The most sheets that a copy is run on.
pub const SHEETS: u64 = 100_000;
/// The stack of the run; copies with little optimization have large frames.
const STACK: usize = 1 << 28;

/// What `get` or `check` of a copy gives.
#[derive(Debug, Clone, PartialEq, Eq)]
pub enum Outcome {
    /// Accepted with this text; the check's is empty.
    Accepted(String),
    /// Syntax.
    Syntax,
    /// The comments left, by where they start and end in the text.
    Comments(Vec<(u32, u32)>),
    /// A panic.
    Panic,
}

impl Outcome {
    /// The comments left, in order.
    #[must_use]
    pub fn comments(ranges: impl Iterator<Item = (u32, u32)>) -> Self {
        let mut ranges: Vec<_> = ranges.collect();
        ranges.sort_unstable();
        Self::Comments(ranges)
    }
}

/// All that a copy gives on a tree.
#[derive(Debug, Clone, PartialEq, Eq)]
pub struct Seen {
    /// `get` at [`TAB_SIZE`].
    pub get: Outcome,
    /// `check`.
    pub check: Outcome,
    /// The largest indent that `get` forms.
    pub deepest: u32,
}

/// A copy's walk over a tree.
pub type Walk = fn(&Root) -> Seen;

thread_local! {
    static FORMED: Cell<u32> = const { Cell::new(0) };
}

/// Called by a copy for each indent that it forms.
pub fn formed(indent: u32) {
    FORMED.set(FORMED.get().max(indent));
}

impl Seen {
    /// What the two calls give; a panic is an outcome of its own.
    pub fn of(get: impl FnOnce() -> Outcome, check: impl FnOnce() -> Outcome) -> Self {
        FORMED.set(0);
        let get = catch_unwind(AssertUnwindSafe(get)).unwrap_or(Outcome::Panic);
        let deepest = FORMED.get();
        let check = catch_unwind(AssertUnwindSafe(check)).unwrap_or(Outcome::Panic);
        Self { get, check, deepest }
    }
}

/// The sheet that tells a copy from 000.
#[derive(Debug, Clone, PartialEq, Eq)]
pub struct Kill {
    /// The case's number under [`SEED`].
    pub index: u64,
    /// A smaller sheet that tells them apart too.
    pub sheet: Sheet,
    /// What 000 gives on it.
    pub original: Seen,
    /// What the copy gives on it.
    pub copy: Seen,
}

/// Runs the copies of the changes with these numbers, from 0, and prints the report. The first walk
/// is that of 000 without a change.
pub fn main(numbers: &[usize], walks: &[Walk]) {
    // A panic of a copy is an outcome, not a message.
    set_hook(Box::new(|_| {}));
    let walks = walks.to_vec();
    let run = thread::Builder::new().stack_size(STACK).spawn(move || run(&walks));
    let kills = run.expect("a thread").join().expect("the run ends");
    print!("{}", report::table(numbers, &kills));
}

/// For each copy but the first the sheet that tells it from the first.
#[must_use]
pub fn run(walks: &[Walk]) -> Vec<Option<Kill>> {
    let (original, copies) = (walks[0], &walks[1..]);
    let mut kills = vec![None; copies.len()];
    for case in Generator::new(SEED).cases(SHEETS) {
        if kills.iter().all(Option::is_some) {
            break;
        }
        let Ok(root) = decode::decode(&case.sheet.text, &case.sheet.record) else { continue };
        let expected = original(&root);
        assert_same_as_000(&case.sheet, &expected);
        for (kill, &copy) in kills.iter_mut().zip(copies) {
            if kill.is_none() && copy(&root) != expected {
                *kill = Some(killed(case.index, &case.sheet, original, copy));
            }
        }
    }
    kills
}

/// The copy without a change gives what the unchanged file gives.
fn assert_same_as_000(sheet: &Sheet, seen: &Seen) {
    let check = Reference::new(sheet).check().value;
    let expected = match check.number {
        number::ACCEPTED => matches!(&seen.get, Outcome::Accepted(text)
            if text.len() as u128 == check.measures.length(TAB_SIZE)),
        number::MISSING | number::IMPORT => seen.get == Outcome::Syntax,
        _ => matches!(seen.get, Outcome::Comments(_)),
    };
    let deepest =
        check.number != number::ACCEPTED || seen.deepest == check.measures.deepest * TAB_SIZE;
    assert!(expected && deepest, "the unchanged copy differs from 000");
}

fn killed(index: u64, sheet: &Sheet, original: Walk, copy: Walk) -> Kill {
    let both = |sheet: &Sheet| {
        let root = decode::decode(&sheet.text, &sheet.record).ok()?;
        Some((original(&root), copy(&root)))
    };
    let differ = |sheet: &Sheet| both(sheet).is_some_and(|(original, copy)| original != copy);
    let sheet = shrink(sheet, &differ);
    let (original, copy) = both(&sheet).expect("a shrunk sheet meets none of 1 to 4");
    Kill { index, sheet, original, copy }
}
