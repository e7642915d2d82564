//! The changes fit 000, and the report is one of these changes.

use mutants::{package, report, MUTATIONS};
use std::collections::HashSet;
use std::process::Command;

#[test]
fn each_change_has_one_place_in_000() {
    let source = package::source().expect("000 can be read");
    let mut copies = HashSet::new();
    for mutation in MUTATIONS {
        let copy = mutation.apply(&source).unwrap_or_else(|message| panic!("{message}"));
        assert_ne!(copy, source, "{}", mutation.change);
        assert!(copies.insert(copy), "{} is there twice", mutation.change);
    }
    assert!(MUTATIONS.len() >= 40);
}

#[test]
fn a_change_without_its_place_is_refused() {
    for source in ["", &format!("{0}{0}", MUTATIONS[0].from)] {
        assert!(MUTATIONS[0].apply(source).is_err());
    }
}

#[test]
fn the_report_lists_these_changes() {
    let path = concat!(env!("CARGO_MANIFEST_DIR"), "/../../MUTANTS.md");
    let stored = std::fs::read_to_string(path).unwrap_or_else(|error| panic!("{path}: {error}"));
    let rows: Vec<_> = report::rows(&stored).collect();
    assert_eq!(rows.len(), MUTATIONS.len());
    for (number, (row, mutation)) in rows.iter().zip(MUTATIONS).enumerate() {
        let change = mutation.change.replace('|', "\\|");
        assert!(row.starts_with(&format!("| {} | {change} | ", number + 1)), "{row}");
    }
}

#[test]
fn a_wrong_argument_gets_a_message_and_exit_2() {
    let wrong = [
        (&["all"][..], "unknown argument \"all\""),
        (&["sample"], "unknown argument \"sample\""),
        (&["sample", "0"], "the step \"0\" is no number from 1 on"),
    ];
    for (arguments, message) in wrong {
        let output = Command::new(env!("CARGO_BIN_EXE_mutants")).args(arguments).output();
        let output = output.expect("the tool runs");
        assert_eq!(output.status.code(), Some(2));
        let told = String::from_utf8(output.stderr).unwrap();
        assert!(told.starts_with(&format!("mutants: {message}")), "{told}");
    }
}
