//! The comment lookups at every token.

use answers::{Above, Answer, Lookup, Origin, Reference};
use schema::SyntaxKind;
use sheet::{lettered, Sheet, SheetBuilder};

/// A sheet without declarations over these tokens.
fn tokens(texts: &[&str]) -> Sheet {
    let mut sheet = SheetBuilder::new();
    for text in texts {
        sheet.word(text);
    }
    sheet.finish_named([]).unwrap()
}

fn found(reference: &Reference) -> Vec<Option<Above>> {
    let numbers = 0..reference.token_count() as u64;
    numbers.map(|token| reference.comment_above(token).value.found).collect()
}

fn above(reference: &Reference) -> Vec<Option<u16>> {
    found(reference).into_iter().map(|found| found.map(|above| above.comment)).collect()
}

fn keywords(reference: &Reference) -> Vec<Option<u16>> {
    found(reference).into_iter().map(|found| found.and_then(|above| above.keyword)).collect()
}

#[test]
fn a_block_comment_ends_the_search_and_a_second_keyword_too() {
    let sheet = tokens(&["x", "(* c *)", "val", "y", "and", "z", "(* d *)", "fun"]);
    let expected = [None, Some(1), Some(1), Some(1), None, None, Some(6), Some(6)];
    assert_eq!(above(&Reference::new(&sheet)), expected);
}

#[test]
fn the_keyword_that_the_search_passed() {
    let sheet = tokens(&["x", "(* c *)", "val", "y", "and", "z", "(* d *)", "w", "...", "fun"]);
    let expected = [None, None, Some(2), Some(2), None, None, None, None, Some(8), None];
    assert_eq!(keywords(&Reference::new(&sheet)), expected);
    // Passed one, found none.
    let sheet = tokens(&["val", " ", "x"]);
    assert_eq!(found(&Reference::new(&sheet)), [None; 3]);
    let expected = [None, None, Some(2), Some(2), Some(2), Some(2), Some(2), Some(2), Some(2)];
    assert_eq!(keywords(&Reference::new(&lettered::f())), expected);
}

#[test]
fn every_keyword_counts() {
    for &kind in SyntaxKind::ALL {
        let mut builder = SheetBuilder::new();
        builder.word("(* c *)");
        builder.token(kind, "k");
        builder.token(kind, "k");
        let reference = Reference::new(&builder.finish_named([]).unwrap());
        let last = match kind {
            SyntaxKind::Other => Some(0),
            SyntaxKind::BlockComment => Some(2),
            _ => None,
        };
        let found = reference.comment_above(2).value.found;
        assert_eq!(found.map(|above| above.comment), last, "{kind:?}");
        let passed = reference.comment_above(1).value.found.and_then(|above| above.keyword);
        let is_keyword = !matches!(kind, SyntaxKind::Other | SyntaxKind::BlockComment);
        assert_eq!(passed, is_keyword.then_some(1), "{kind:?}");
    }
}

#[test]
fn a_token_not_below_the_count_is_9() {
    let reference = Reference::new(&lettered::a());
    assert_eq!(reference.token_count(), 7);
    for token in [7, 8, 0xFFFE, 0xFFFF, 0x1_0000, u64::MAX] {
        let value = Lookup { number: 9, place: 0, found: None };
        let expected = Answer { value, origin: Origin::Arithmetic };
        assert_eq!(reference.comment_above(token), expected);
        assert_eq!(reference.doc_comment_above(token, 0).value.number, 9);
    }
    assert_eq!(reference.comment_above(6).value.number, 0);
}

#[test]
fn numbers_1_to_4_come_before_9() {
    for (sheet, number) in [
        (lettered::n_spaces(32_769), 1),
        (Sheet { text: vec![200], record: Vec::new() }, 2),
        (Sheet::default(), 3),
        (lettered::n_parentheses(199), 4),
    ] {
        let reference = Reference::new(&sheet);
        let answer = reference.comment_above(u64::MAX);
        assert_eq!((answer.value.number, answer.origin), (number, Origin::Decoder));
        assert_eq!(answer.value.found, None);
        assert_eq!(reference.doc_comment_above(0, 0).value.number, number);
    }
}

#[test]
fn lookups_meet_no_5_or_6() {
    let left = Reference::new(&lettered::g_left());
    assert_eq!(above(&left)[8], Some(6));
    let import = Reference::new(&lettered::l_import_with_comment());
    assert_eq!(above(&import)[2], Some(0));
}

/// The doc text of a comment.
fn doc(comment: &str) -> Option<String> {
    let mut builder = SheetBuilder::new();
    builder.token(SyntaxKind::BlockComment, comment);
    let reference = Reference::new(&builder.finish_named([]).unwrap());
    reference.doc_comment_above(0, usize::MAX).value.found
}

#[test]
fn doc_texts() {
    for (comment, expected) in [
        ("(*!\n * a\n *)", Some("a")),
        ("(* a *)", None),
        ("(*!*)", None),
        ("(*!\n*)", Some("")),
        ("(*! \n*)", None),
        ("(* !\n*)", Some("")),
        ("(*  !\n*)", None),
        ("(*!\n* )", Some("")),
        ("(*!\n**)", None),
        ("(*!\n *) ", None),
        ("(*!\r\n * a\r\r\n *)", Some("a\r")),
        ("(*!\n *)\r", None),
        ("(*!\n *)\n", Some("")),
        ("(*!\n * a\n no star\n *  b * c\n *\n *)", Some("a\n b * c\n")),
        ("no star", None),
        ("*!", None),
    ] {
        assert_eq!(doc(comment).as_deref(), expected, "{comment:?}");
    }
}

#[test]
fn number_8_only_where_a_doc_text_was_found() {
    let reference = Reference::new(&lettered::m_doc());
    assert_eq!(reference.doc_comment_above(2, 0).value.number, 8);
    assert_eq!(reference.doc_comment_above(2, 1).value.number, 0);
    let plain = Reference::new(&lettered::m_plain());
    assert_eq!(plain.doc_comment_above(2, 0).value.number, 0);
}
