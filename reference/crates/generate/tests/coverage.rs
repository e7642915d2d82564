//! What a run of a fixed seed reaches.

use answers::Reference;
use decode::number;
use generate::{Coverage, Generator};

const SEED: u64 = 1;

#[test]
fn every_goal_is_reached_and_a_third_is_accepted() {
    let mut coverage = Coverage::new();
    for case in Generator::new(SEED).cases(40_000) {
        let reference = Reference::new(&case.sheet);
        coverage.add(&case, &reference, &case.calls(&reference));
    }
    let unreached: Vec<_> = coverage.unreached().map(|goal| (goal.kind(), goal.name())).collect();
    assert!(unreached.is_empty(), "{unreached:?}");
    let (sheets, accepted) = coverage.grammar_directed();
    assert!(accepted * 3 >= sheets, "{accepted} of {sheets} accepted");
}

#[test]
fn no_goal_is_reached_without_cases() {
    let coverage = Coverage::new();
    let kinds = |kind| coverage.unreached().filter(|goal| goal.kind() == kind).count();
    // 75 forms without the import, and the groups and what choices hold.
    assert!(kinds("node") > 74);
    assert_eq!(kinds("number"), 8 + 10 + 6 + 7);
    assert_eq!(kinds("kind"), 21);
    assert_eq!(kinds("size"), 12);
}

#[test]
fn a_case_depends_on_seed_and_number_alone() {
    let generator = Generator::new(SEED);
    let first: Vec<_> = generator.cases(200).collect();
    for case in first.iter().rev() {
        assert_eq!(generator.case(case.index), *case);
    }
    let other: Vec<_> = Generator::new(SEED + 1).cases(200).collect();
    let same = first.iter().zip(&other).filter(|(one, two)| one.sheet == two.sheet).count();
    assert!(same < 20, "{same} of 200 sheets are the same under two seeds");
}

#[test]
fn calls_fit_the_room() {
    for case in Generator::new(SEED).cases(2_000) {
        let calls = case.calls(&Reference::new(&case.sheet));
        let measures = calls.check.value.measures;
        let verdict = calls.get.value.verdict;
        let needed = measures.length(case.tab_size);
        match verdict.number {
            number::ACCEPTED => {
                let text = calls.get.value.text.expect("a text within the bound");
                assert_eq!(text.len() as u128, needed, "{case}");
                assert!(text.len() <= calls.output, "{case}");
            }
            number::OUTPUT_TOO_SHORT => assert!(needed > calls.output as u128, "{case}"),
            _ => assert_eq!(calls.get.value.text, None, "{case}"),
        }
    }
}
