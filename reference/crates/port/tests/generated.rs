//! Generated sheets of a fixed seed, damaged ones among them.

use port::run::run;
use port::Compared;

/// The fewest sheets.
const SHEETS: u64 = 100_000;

/// The seed.
const SEED: u64 = 31;

#[test]
fn generated_sheets() {
    let compared = run(SEED, SHEETS).unwrap_or_else(|differing| panic!("{differing}"));
    println!("{compared}");
    assert_eq!(compared.sheets, SHEETS);
    every_number_occurs(&compared);
    let accepted = compared.check.of(0);
    assert!(3 * accepted >= SHEETS, "{accepted} accepted");
    assert!(compared.indented > 0 && compared.doc_texts > 0 && compared.ended > 0);
    assert_eq!(compared.comment_above.of(0), compared.tokens, "a lookup at every token");
    assert!(20 * compared.whole >= 19 * SHEETS, "{} with doc lookups everywhere", compared.whole);
}

fn every_number_occurs(compared: &Compared) {
    assert_eq!(compared.check.occurring(), [0, 1, 2, 3, 4, 6, 13, 14]);
    assert_eq!(compared.get.occurring(), [0, 1, 2, 3, 4, 6, 7, 8, 13, 14]);
    assert_eq!(compared.comment_above.occurring(), [0, 1, 2, 3, 4, 9]);
    assert_eq!(compared.doc_comment_above.occurring(), [0, 1, 2, 3, 4, 8, 9]);
}
