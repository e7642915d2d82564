//! The lettered sheets of document 01.

use diverplume::{comment_above, doc_comment_above, get};
use port::compare::{compare, Work};
use sheet::lettered;

#[test]
fn lettered_sheets() {
    for (name, sheet) in lettered::all() {
        let compared = compare(&sheet, Work::ALL);
        let compared = compared.unwrap_or_else(|difference| panic!("{name}: {difference}"));
        assert_eq!(compared.whole, 1, "{name}");
    }
}

#[test]
fn sheet_c() {
    let sheet = lettered::c();
    let mut output = [b'.'; 40];
    assert!(get(&sheet.text, &sheet.record, 2, &mut output).is_accepted());
    assert_eq!(&output, b"val x =\n  if a then\n    b\n  else\n    c..");
}

#[test]
fn sheet_m() {
    let (doc, plain) = (lettered::m_doc(), lettered::m_plain());
    let mut output = *b"....";
    let answer = doc_comment_above(&doc.text, &doc.record, 2, &mut output);
    assert_eq!((answer.found, &output), (Some(1), b"a..."));
    let mut output = *b"....";
    let answer = doc_comment_above(&plain.text, &plain.record, 2, &mut output);
    assert_eq!((answer.found, &output), (None, b"...."));
    assert_eq!(comment_above(&plain.text, &plain.record, 2).comment, Some(0));
}

#[test]
fn sheet_f_tells_the_keyword_passed() {
    let sheet = lettered::f();
    for (token, keyword) in [(0, None), (2, Some(2)), (4, Some(2))] {
        let above = comment_above(&sheet.text, &sheet.record, token);
        assert_eq!((above.comment, above.keyword), (Some(0), keyword), "token {token}");
    }
}
