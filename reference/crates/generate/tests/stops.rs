//! The table of stops against what the walk does.

use answers::Reference;
use decode::number;
use generate::{commands, is_required, Command, Generator, Role};
use schema::{FieldKind, Node};
use std::collections::HashSet;
use stops::{failures_of_check, missing, told, Missing, SITES, STOPS};

#[test]
fn required_fields_are_those_of_the_stops() {
    for &node in Node::ALL {
        for (at, field) in node.fields().iter().enumerate() {
            let stops = STOPS.contains(&Missing::Field(node, field.accessor));
            let is_one = matches!(field.kind, FieldKind::One(_));
            assert_eq!(is_required(node, at), stops, "{}.{}", node.name(), field.accessor);
            assert!(is_one || !stops);
        }
    }
}

/// What the walk misses at a command.
fn missing_at(command: &Command) -> Option<Missing> {
    match (command.role, command.field) {
        (Role::Absent, Some((node, at))) => Some(Missing::Field(node, node.fields()[at].accessor)),
        (Role::List(0), Some((Node::Path, _))) => Some(Missing::FirstName),
        (Role::Form(_, Node::EsImportDec), _) => Some(Missing::Import),
        _ => None,
    }
}

#[test]
fn the_place_is_that_of_what_the_innermost_failing_site_misses() {
    let stops: Vec<_> = missing().map(|(_, missing)| missing).collect();
    let mut begun = HashSet::new();
    for case in Generator::new(1).cases(40_000) {
        let reference = Reference::new(&case.sheet);
        let Some(root) = reference.root() else { continue };
        let failures = failures_of_check(root);
        let commands = commands(&case.sheet.record).expect("the record fits the schema");
        // Each failure begins with what stands at its place, a dropped one too.
        for failure in &failures {
            let missing = stops[failure.site];
            assert_eq!(
                failure.stop.is_some(),
                missing.is_some(),
                "{case}: {:?}",
                SITES[failure.site]
            );
            let Some(stop) = failure.stop else { continue };
            let at = commands.iter().find(|command| command.bytes.start == stop.place as usize);
            assert_eq!(at.and_then(missing_at), missing, "{case}: {stop:?}");
            assert_eq!(stop.is_import, missing == Some(Missing::Import));
            begun.insert(failure.site);
        }
        let check = reference.check().value;
        match check.number {
            number::MISSING | number::IMPORT => {
                let stop = told(&failures).expect("a stop");
                assert_eq!(
                    (check.place, check.number == number::IMPORT),
                    (stop.place, stop.is_import)
                );
                // Behind the stop that is told each site hands on.
                let behind = failures.iter().rev().take_while(|failure| failure.stop.is_none());
                assert!(behind.count() > 0 || failures.len() == 1, "{case}");
            }
            _ => assert!(check.place == 0 || check.number == number::COMMENTS_LEFT, "{case}"),
        }
    }
    let all = stops.iter().filter(|stop| stop.is_some()).count();
    assert_eq!(begun.len(), all, "every stop begins a failure");
}
