//! The calls on small sheets.

use crate::sheets;
use diverplume::record::Sheet;
use diverplume::{check, comment_above, doc_comment_above, format, get, Measures, Number};

const CONDITIONAL: &str = "val x =\n  if a then\n    b\n  else\n    c";

#[test]
fn check_measures() {
    let Sheet { text, record } = sheets::conditional();
    let verdict = check(&text, &record);
    assert!(verdict.is_accepted() && verdict.comments.is_empty());
    assert_eq!(verdict.measures, Measures { deepest: 2, letters: 26, units: 6 });
    assert_eq!(verdict.measures.length(2), 38);
    assert_eq!(verdict.measures.length(u32::MAX), 26 + 6 * u128::from(u32::MAX));
}

#[test]
fn get_writes_the_text_and_nothing_else() {
    let Sheet { text, record } = sheets::conditional();
    let mut output = [0xA5; 40];
    let verdict = get(&text, &record, 2, &mut output);
    assert_eq!(verdict, check(&text, &record));
    assert_eq!(&output[..38], CONDITIONAL.as_bytes());
    assert_eq!(output[38..], [0xA5; 2]);
}

#[test]
fn declined_calls_leave_the_output() {
    let Sheet { text, record } = sheets::conditional();
    let mut output = [0xA5; 37];
    for (tab_size, number) in [(2, Number::OutputTooShort), (1 << 31, Number::IndentTooWide)] {
        let verdict = get(&text, &record, tab_size, &mut output);
        assert_eq!((verdict.number, verdict.place), (number, 0));
        assert_eq!(verdict.measures, check(&text, &record).measures);
        assert_eq!(output, [0xA5; 37]);
    }
}

#[test]
fn format_is_exact() {
    let Sheet { text, record } = sheets::conditional();
    let formatted = format(&text, &record, 2).unwrap();
    assert_eq!(formatted, CONDITIONAL.as_bytes());
    assert_eq!(formatted.capacity(), 38);
    assert_eq!(format(&text, &record, 0).unwrap().len(), 26);
    assert_eq!(format(&text, &record, 1 << 31).unwrap_err().number, Number::IndentTooWide);
    assert_eq!(format(&text, &[], 2).unwrap_err().number, Number::Malformed);
    assert_eq!(format(&[], &[0x02, 0, 0], 2).unwrap(), b"");
}

#[test]
fn comments_left_are_told_by_token() {
    let comments: Vec<_> = std::iter::repeat_n("(* c *)", 100).collect();
    let Sheet { text, record } = sheets::with_comments_inside(&comments);
    let verdict = check(&text, &record);
    assert_eq!((verdict.number, verdict.place), (Number::CommentsLeft, 10));
    let expected: Vec<_> = (0..100).map(|at| 6 + 2 * at).collect();
    assert_eq!(verdict.comments.iter().collect::<Vec<_>>(), expected);
    assert_eq!(verdict.comments.len(), 100);
    assert!(verdict.comments.contains(6) && !verdict.comments.contains(7));
    assert!(!verdict.comments.contains(4_096) && !verdict.comments.contains(usize::MAX));
    assert_eq!(verdict.comments.words()[0], 0x5555_5555_5555_5540);
    assert_eq!(verdict.measures, Measures::default());
}

#[test]
fn lookups() {
    let Sheet { text, record } = sheets::commented("(*!\n * why\n *)");
    for (token, keyword) in [(0, None), (1, None), (2, Some(2)), (4, Some(2)), (8, Some(2))] {
        let above = comment_above(&text, &record, token);
        assert_eq!((above.comment, above.keyword), (Some(0), keyword), "token {token}");
    }
    let mut output = *b".....";
    assert_eq!(doc_comment_above(&text, &record, 2, &mut output).found, Some(3));
    assert_eq!(&output, b"why..");
    let short = doc_comment_above(&text, &record, 2, &mut output[..2]);
    assert_eq!((short.number, short.found), (Number::OutputTooShort, None));
    let past = comment_above(&text, &record, 9);
    assert_eq!((past.number, past.comment, past.keyword), (Number::NoToken, None, None));
    let Sheet { text, record } = sheets::commented("(* why *)");
    assert_eq!(doc_comment_above(&text, &record, 2, &mut output).found, None);
    let Sheet { text, record } = sheets::conditional();
    let none = comment_above(&text, &record, 0);
    assert_eq!((none.comment, none.keyword), (None, None), "passed one, found none");
    assert_eq!(&output, b"why..");
}
