//! Comments left: every word and bit of the set.

use port::compare::{compare, Work};
use schema::{limit, Sheet, SheetBuilder, SyntaxKind};

/// A sheet of so many tokens without declarations, those a comment that `is_comment` takes.
fn sheet(count: usize, is_comment: impl Fn(usize) -> bool) -> Sheet {
    let mut builder = SheetBuilder::new();
    for token in 0..count {
        let kind = if is_comment(token) { SyntaxKind::BlockComment } else { SyntaxKind::Other };
        builder.token(kind, "c");
    }
    builder.finish([]).expect("a sheet within the limits")
}

fn refused(sheet: &Sheet) {
    let work = Work { comments: 100_000, docs: 100_000 };
    let compared = compare(sheet, work).unwrap_or_else(|difference| panic!("{difference}"));
    assert_eq!(compared.check.of(6), 1);
}

#[test]
fn one_comment_at_each_token() {
    for token in 0..limit::TOKENS {
        // The same count of tokens every time, and just so many.
        refused(&sheet(token + 1, |other| other == token));
        if token % 37 == 0 {
            refused(&sheet(limit::TOKENS, |other| other == token));
        }
    }
}

#[test]
fn many_comments() {
    for step in [1, 2, 3, 63, 64, 65, 1_000] {
        for count in [1, 63, 64, 65, 128, limit::TOKENS - 1, limit::TOKENS] {
            refused(&sheet(count, |token| token % step == 0));
        }
    }
}
