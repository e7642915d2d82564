//! The report.

use crate::judge::{Kill, Outcome, Seen, SEED, SHEETS, TAB_SIZE};
use crate::table::MUTATIONS;
use generate::{commands, Role};
use sheet::Sheet;
use std::fmt::Write as _;

/// The head of `MUTANTS.md`.
const HEAD: &str = "# Changed copies of 000

Each copy of 000 below has one change. `cargo run --release --offline -p mutants` makes them from
the unchanged file, runs them on the cases of `generate` and writes this file. A copy is told apart
from 000 by `get`'s answer, by `check`'s, or by the largest depth that `indented` forms. The case
that does so first is then made smaller as long as it still does.

";

/// The report on the copies of the changes with these numbers in [`MUTATIONS`].
#[must_use]
pub fn table(numbers: &[usize], kills: &[Option<Kill>]) -> String {
    let killed = kills.iter().flatten().count();
    let mut report = String::from(HEAD);
    writeln!(
        report,
        "Seed {SEED}, at most {SHEETS} cases, tab size {TAB_SIZE}: {killed} of {} told apart.\n",
        kills.len()
    )
    .expect("a String");
    report.push_str("| number | change | told apart after | by the forms | 000 | the copy |\n");
    report.push_str("|---|---|---|---|---|---|\n");
    for (&number, kill) in numbers.iter().zip(kills) {
        let told = match kill {
            None => "not told apart | | |".to_owned(),
            Some(kill) => {
                let (original, copy) = shown(&kill.original, &kill.copy);
                format!("{} | {} | {original} | {copy}", kill.index + 1, forms(&kill.sheet))
            }
        };
        let change = cell(MUTATIONS[number].change);
        writeln!(report, "| {} | {change} | {told} |", number + 1).expect("a String");
    }
    report
}

/// The lines of a report that are about one copy each.
pub fn rows(report: &str) -> impl Iterator<Item = &str> {
    report.lines().filter(|line| line.starts_with("| ")).skip(1)
}

/// The forms of a sheet in the order of the record.
fn forms(sheet: &Sheet) -> String {
    let commands = commands(&sheet.record).unwrap_or_default();
    let forms = commands.iter().filter_map(|command| match command.role {
        Role::Form(_, form) => Some(form.name()),
        _ => None,
    });
    forms.collect::<Vec<_>>().join(" ")
}

/// What differs between two answers.
fn shown(original: &Seen, copy: &Seen) -> (String, String) {
    if original.get != copy.get {
        (outcome(&original.get), outcome(&copy.get))
    } else if original.check != copy.check {
        (outcome(&original.check), outcome(&copy.check))
    } else {
        let depth = |seen: &Seen| format!("deepest {}", seen.deepest / TAB_SIZE);
        (depth(original), depth(copy))
    }
}

fn outcome(outcome: &Outcome) -> String {
    match outcome {
        Outcome::Accepted(text) => format!("`{}`", cell(&text.escape_default().to_string())),
        Outcome::Syntax => "Syntax".to_owned(),
        Outcome::Comments(ranges) => format!("comments left: {}", ranges.len()),
        Outcome::Panic => "a panic".to_owned(),
    }
}

/// A text in a cell of the table.
fn cell(text: &str) -> String {
    text.replace('|', "\\|")
}
