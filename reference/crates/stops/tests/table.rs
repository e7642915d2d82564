//! The table of stops against the text of 000.

use schema::Node;
use stops::{Missing, SITES, STOPS};

fn source() -> String {
    let path = concat!(env!("CARGO_MANIFEST_DIR"), "/../sml-naive-fmt/src/lib.rs");
    std::fs::read_to_string(path).unwrap_or_else(|error| panic!("{path}: {error}"))
}

#[test]
fn sites_are_the_question_marks_of_000_and_the_import() {
    let text = source();
    assert_eq!(SITES.len(), text.matches('?').count() + 1);
    let lines: Vec<_> = text.lines().collect();
    for site in SITES {
        let line = lines[site.line - 1];
        let behind = line.strip_prefix(site.before).expect("the text before the site");
        let import = site.before.ends_with("EsImportDec(_) => return None");
        assert!(behind.starts_with('?') || import, "line {}: {line}", site.line);
    }
}

#[test]
fn stops_stand_in_the_order_of_000() {
    let stops: Vec<_> = SITES.iter().filter(|site| site.is_stop()).collect();
    assert_eq!(stops.len(), STOPS.len());
    for (site, stop) in stops.iter().zip(STOPS) {
        let part = site.part().expect("a stop reads a part");
        match *stop {
            Missing::Field(Node::PatArg, "pat") => assert_eq!(part, "p"),
            Missing::Field(Node::ExpArg, "exp") => assert_eq!(part, "e"),
            Missing::Field(_, accessor) => assert_eq!(part, accessor, "line {}", site.line),
            Missing::FirstName => assert_eq!(part, "next", "line {}", site.line),
            Missing::Import => assert_eq!(part, "None", "line {}", site.line),
        }
    }
}

#[test]
fn sites_that_never_fail_are_five() {
    let lines: Vec<_> =
        SITES.iter().filter(|site| site.never_fails()).map(|site| site.line).collect();
    assert_eq!(lines, [44, 272, 280, 284, 632]);
}
