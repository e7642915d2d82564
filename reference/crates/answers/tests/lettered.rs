//! The lettered sheets with the answers that document 01 lists.

use answers::{
    program_output, Above, Answer, CommentSet, Formatted, Lookup, Origin, Reference, Verdict,
};
use decode::program::Input;
use decode::Measures;
use sheet::{lettered, Sheet};

const EMPTY: CommentSet = [0; 64];

/// Lines at their depths, as one text at a tab size.
fn lines(lines: &[(usize, &str)], tab_size: usize) -> String {
    let lines: Vec<_> =
        lines.iter().map(|(depth, line)| " ".repeat(depth * tab_size) + line).collect();
    lines.join("\n")
}

/// Checks that a sheet is accepted with (deepest, letters, units) and these lines.
fn accepted(sheet: &Sheet, (deepest, letters, units): (u32, u64, u64), text: &[(usize, &str)]) {
    let measures = Measures { deepest, letters, units };
    let verdict = Verdict { number: 0, place: 0, measures, set: EMPTY };
    let reference = Reference::new(sheet);
    assert_eq!(reference.check(), Answer { value: verdict, origin: Origin::Rust });
    for tab_size in [0, 1, 2, 3, 8] {
        let expected = lines(text, tab_size);
        assert_eq!(expected.len() as u64, letters + tab_size as u64 * units);
        let formatted = Formatted { verdict, text: Some(expected.clone()) };
        let answer = reference.get(u32::try_from(tab_size).unwrap(), expected.len());
        assert_eq!(answer, Answer { value: formatted, origin: Origin::Rust });
    }
}

/// Checks that a sheet is refused by check and formatting alike, at any tab size.
fn refused(sheet: &Sheet, number: u8, place: u32, set: CommentSet, origin: Origin) {
    let verdict = Verdict { number, place, measures: Measures::default(), set };
    let reference = Reference::new(sheet);
    assert_eq!(reference.check(), Answer { value: verdict, origin });
    for tab_size in [0, 2, u32::MAX] {
        let formatted = Formatted { verdict, text: None };
        assert_eq!(reference.get(tab_size, 0), Answer { value: formatted, origin });
    }
}

/// The program's output for a sheet.
fn printed(sheet: &Sheet, tab_size: u32) -> String {
    let input = Input { tab_size, text: &sheet.text, record: &sheet.record };
    String::from_utf8(program_output(&input.to_bytes().unwrap())).unwrap()
}

#[test]
fn a() {
    accepted(&lettered::a(), (0, 9, 0), &[(0, "val x = 1")]);
    assert_eq!(printed(&lettered::a(), 2), "0 0 0 9 0\nval x = 1");
}

#[test]
fn b() {
    accepted(&lettered::b(), (1, 11, 0), &[(0, "fun f x = 1")]);
}

#[test]
fn c() {
    let sheet = lettered::c();
    let text = [(0, "val x ="), (1, "if a then"), (2, "b"), (1, "else"), (2, "c")];
    accepted(&sheet, (2, 26, 6), &text);
    assert_eq!(lines(&text, 2).len(), 38);
}

#[test]
fn c_at_its_bounds() {
    let reference = Reference::new(&lettered::c());
    let number = |tab_size, output| {
        let Answer { value, origin } = reference.get(tab_size, output);
        assert_eq!(value.verdict.measures, Measures { deepest: 2, letters: 26, units: 6 });
        assert_eq!((value.verdict.place, value.verdict.set), (0, EMPTY));
        assert_eq!(value.text.is_some(), origin == Origin::Rust);
        (value.verdict.number, origin)
    };
    assert_eq!(number(2, 38), (0, Origin::Rust));
    assert_eq!(number(2, 37), (8, Origin::Arithmetic));
    assert_eq!(number(2_147_483_647, 65_536), (8, Origin::Arithmetic));
    assert_eq!(number(2_147_483_647, 26 + 6 * 2_147_483_647), (0, Origin::Arithmetic));
    assert_eq!(number(2_147_483_647, 25 + 6 * 2_147_483_647), (8, Origin::Arithmetic));
    assert_eq!(number(2_147_483_648, usize::MAX), (7, Origin::Arithmetic));
    assert_eq!(number(2_147_483_648, 0), (7, Origin::Arithmetic));
    assert_eq!(printed(&lettered::c(), 2_147_483_648), "7 0 2 26 6\n");
    assert_eq!(printed(&lettered::c(), 2_147_483_647), "8 0 2 26 6\n");
}

#[test]
fn d() {
    accepted(&lettered::d(), (0, 14, 0), &[(0, "datatype t = A")]);
}

#[test]
fn e() {
    let text = [(0, "datatype t ="), (1, "A"), (0, "| B")];
    accepted(&lettered::e(), (1, 18, 1), &text);
}

#[test]
fn f() {
    accepted(&lettered::f(), (0, 17, 0), &[(0, "(* c *)"), (0, "val x = 1")]);
    // `val` is token 2, the comment token 0.
    for (token, keyword) in [(0, None), (2, Some(2)), (4, Some(2))] {
        let found = Some(Above { comment: 0, keyword });
        let answer = Reference::new(&lettered::f()).comment_above(token);
        let value = Lookup { number: 0, place: 0, found };
        assert_eq!(answer, Answer { value, origin: Origin::Rust });
    }
}

#[test]
fn g() {
    let mut set = EMPTY;
    set[0] = 1 << 6;
    refused(&lettered::g_left(), 6, 8, set, Origin::Rust);
    let text = [(0, "val x = 1"), (0, ""), (0, "(* c *)"), (0, "val y = 2")];
    accepted(&lettered::g_above(), (0, 28, 0), &text);
}

#[test]
fn h() {
    let text = [(0, "(* c *)"), (0, "val x = 1"), (0, ""), (0, "(* c *)"), (0, "f")];
    accepted(&lettered::h(), (0, 28, 0), &text);
}

#[test]
fn i() {
    accepted(&lettered::i(), (0, 11, 0), &[(0, "val p = op+")]);
}

#[test]
fn j() {
    let text = [(0, "val x ="), (1, "let"), (2, "val y = 1"), (1, "in"), (2, "y"), (1, "end")];
    accepted(&lettered::j(), (2, 30, 7), &text);
}

#[test]
fn k() {
    accepted(&lettered::k(), (0, 16, 0), &[(0, "type t = ( * int")]);
}

#[test]
fn l() {
    refused(&lettered::l_import(), 14, 21, EMPTY, Origin::Rust);
    refused(&lettered::l_import_with_comment(), 14, 29, EMPTY, Origin::Rust);
    accepted(&lettered::l_empty(), (0, 0, 0), &[(0, "")]);
}

#[test]
fn m() {
    let reference = Reference::new(&lettered::m_doc());
    let doc = |output| reference.doc_comment_above(2, output);
    let found = Lookup { number: 0, place: 0, found: Some("a".to_owned()) };
    assert_eq!(doc(1), Answer { value: found, origin: Origin::Rust });
    let too_short = Lookup { number: 8, place: 0, found: None };
    assert_eq!(doc(0), Answer { value: too_short, origin: Origin::Arithmetic });
    let none = Lookup { number: 0, place: 0, found: None };
    let answer = Reference::new(&lettered::m_plain()).doc_comment_above(2, 0);
    assert_eq!(answer, Answer { value: none, origin: Origin::Rust });
}

#[test]
fn n_parentheses() {
    let line = format!("val x = {}_{}", "(".repeat(198), ")".repeat(198));
    accepted(&lettered::n_parentheses(198), (0, 405, 0), &[(0, &line)]);
    let sheet = lettered::n_parentheses(199);
    let wildcard = sheet.record.iter().rposition(|&byte| byte == 0x41).unwrap();
    refused(&sheet, 4, u32::try_from(wildcard).unwrap(), EMPTY, Origin::Decoder);
}

#[test]
fn n_spaces() {
    accepted(&lettered::n_spaces(32_768), (0, 0, 0), &[(0, "")]);
    refused(&lettered::n_spaces(32_769), 1, 0, EMPTY, Origin::Decoder);
    assert_eq!(printed(&lettered::n_spaces(32_768), 4), "0 0 0 0 0\n");
    assert_eq!(printed(&lettered::n_spaces(32_769), 4), "1 0 0 0 0\n");
}

#[test]
fn n_tokens() {
    accepted(&lettered::n_tokens(4_096), (0, 0, 0), &[(0, "")]);
    refused(&lettered::n_tokens(4_097), 3, 4 * 4_096, EMPTY, Origin::Decoder);
}

#[test]
fn program_declines() {
    assert_eq!(printed(&lettered::g_left(), 2), "6 8 0 0 0\n");
    assert_eq!(printed(&lettered::l_import(), 2), "14 21 0 0 0\n");
    assert_eq!(program_output(&[]), b"1 0 0 0 0\n");
    assert_eq!(program_output(&[0, 0, 0, 0, 1, 0]), b"1 0 0 0 0\n");
    let empty = Sheet::default();
    assert_eq!(printed(&empty, 0), "3 0 0 0 0\n");
    let long = Sheet { record: vec![0x02; 65_537], ..empty };
    assert_eq!(printed(&long, 0), "1 0 0 0 0\n");
}
