//! The limits that the builder checks.

use diverplume_record::tree::{Dec, ExpDec, HoleExp, NonfixDec, ParenExp};
use diverplume_record::{tree, BuildError, Problem, Sheet, SheetBuilder, SyntaxKind, Token};

fn words(builder: &mut SheetBuilder, text: &str, count: usize) -> Option<Token> {
    (0..count).map(|_| builder.token(SyntaxKind::Other, text)).last()
}

/// A sheet of so many tokens of that text and no declarations.
fn of_tokens(text: &str, count: usize) -> Result<Sheet, BuildError> {
    let mut builder = SheetBuilder::new();
    words(&mut builder, text, count);
    builder.finish([])
}

#[test]
fn tokens() {
    assert_eq!(of_tokens(";", 4_096).unwrap().record.len(), 4 * 4_096 + 3);
    let error = of_tokens(";", 4_097).unwrap_err();
    assert_eq!(error.problem, Problem::TooManyTokens(4_096));
    assert_eq!(error.to_string(), "token 4096 is one too many, a sheet has at most 4096");
}

#[test]
fn text() {
    assert_eq!(of_tokens(&" ".repeat(16_384), 2).unwrap().text.len(), 32_768);
    let error = of_tokens(&" ".repeat(16_385), 2).unwrap_err();
    assert_eq!(error.to_string(), "token 1 ends past the longest text of 32768 bytes");
    assert_eq!(of_tokens("é", 1).unwrap().text, "é".as_bytes());
}

#[test]
fn forms_inside_one_another() {
    let parentheses = |count| {
        let exp =
            (0..count).fold(tree::Exp::from(HoleExp::new()), |exp, _| ParenExp::of(exp).into());
        SheetBuilder::new().finish([Dec::one(ExpDec::of(exp).without_first())])
    };
    assert!(parentheses(198).is_ok());
    let error = parentheses(199).unwrap_err();
    assert_eq!(error.problem, Problem::TooDeep(diverplume_record::Node::HoleExp));
    assert!(error
        .to_string()
        .ends_with(".exp: HoleExp stands inside 200 forms, the most there may be"));
}

#[test]
fn record() {
    // A token, the frame of the declaration, and three bytes for each name.
    let names = |spaces: usize, count: usize| {
        let mut builder = SheetBuilder::new();
        let x = builder.word("x");
        words(&mut builder, " ", spaces);
        let dec = NonfixDec::of(vec![x; count]).without_first();
        builder.finish([Dec::one(dec)])
    };
    let shortest = names(0, 0).unwrap().record.len();
    let (spaces, count) = (0..3)
        .find_map(|spaces| {
            let left = 65_536 - shortest - 4 * spaces;
            (left % 3 == 0).then_some((spaces, left / 3))
        })
        .unwrap();
    assert_eq!(names(spaces, count).unwrap().record.len(), 65_536);
    let error = names(spaces, count + 1).unwrap_err();
    assert_eq!(error.to_string(), "the record has 65539 bytes, the most is 65536");
}

#[test]
fn unlimited_builders_check_none() {
    let mut builder = SheetBuilder::unlimited();
    words(&mut builder, "é", 20_000);
    assert_eq!(builder.finish([]).unwrap().text.len(), 40_000);
}

#[test]
fn tokens_that_no_node_names_become_one() {
    let mut builder = SheetBuilder::new();
    let [val, _, x, _, _, _] = builder.words(["val", " ", "x", " ", "=", " "]);
    let [_, _, one, _, _] = builder.words(["(* c *)", " ", "1", " ", ";"]);
    let bind = tree::ValBind::new()
        .pat(tree::ConPat::new().path(tree::Path::named([x])))
        .eq_exp(tree::EqExp::of(tree::SConExp::of(one)));
    let dec = tree::ValDec::of([bind]).first(val).last(one);
    let root = tree::Root::of([Dec::one(dec)]);
    let sheet = builder.finish_fused(&root).unwrap();
    assert_eq!(sheet.text, b"val x = (* c *) 1 ;");
    let tokens: Vec<_> = sheet.record.chunks(4).take_while(|token| token[0] == 5).collect();
    let lengths: Vec<_> = tokens.iter().map(|token| (token[1], token[2])).collect();
    // val, space, x, " = ", comment, space, 1, " ;"
    assert_eq!(lengths, [(4, 3), (0, 1), (0, 1), (0, 3), (1, 7), (0, 1), (0, 1), (0, 2)]);
    let mut same = SheetBuilder::new();
    let [val, _, x, _, _, _, one, _] =
        same.words(["val", " ", "x", " = ", "(* c *)", " ", "1", " ;"]);
    let bind = tree::ValBind::new()
        .pat(tree::ConPat::new().path(tree::Path::named([x])))
        .eq_exp(tree::EqExp::of(tree::SConExp::of(one)));
    assert_eq!(same.finish([Dec::one(tree::ValDec::of([bind]).first(val))]).unwrap(), sheet);
}
