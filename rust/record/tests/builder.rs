//! The builder over nodes by name: what it writes, and what it refuses.

use diverplume_record::{node, NodeDescription, Problem, SheetBuilder, SyntaxKind, Token};

/// A `Dec` that holds one declaration.
fn dec(dec_one: NodeDescription) -> NodeDescription {
    let in_seq = node("DecInSeq").with("dec_one", dec_one);
    node("Dec").with("dec_with_tail", node("DecWithTail").with("dec_in_seqs", [in_seq]))
}

/// An `SConExp`.
fn s_con_exp(s_con: Token) -> NodeDescription {
    node("SConExp").with("s_con", s_con)
}

#[test]
fn words_take_the_kind_of_their_text() {
    for (text, kind) in [
        ("x", SyntaxKind::Other),
        ("(", SyntaxKind::Other),
        ("valx", SyntaxKind::Other),
        ("(* c *)", SyntaxKind::BlockComment),
        ("...", SyntaxKind::DotDotDot),
        ("and", SyntaxKind::AndKw),
        ("include", SyntaxKind::IncludeKw),
    ] {
        let mut builder = SheetBuilder::new();
        builder.word(text);
        let record = builder.finish_named([]).unwrap().record;
        let length = u8::try_from(text.len()).unwrap();
        assert_eq!(record, [0x05, kind.number(), length, 0, 0x02, 0, 0], "{text}");
    }
}

#[test]
fn fields_are_written_in_the_order_of_the_schema() {
    let record = |order: [usize; 3]| {
        let mut builder = SheetBuilder::new();
        let [x, y, z] = builder.words(["x", "y", "z"]);
        let fields = [("cond", s_con_exp(x)), ("yes", s_con_exp(y)), ("no", s_con_exp(z))];
        let exp = order
            .into_iter()
            .fold(node("IfExp"), |exp, at| exp.with(fields[at].0, fields[at].1.clone()));
        builder.finish_named([dec(node("ExpDec").with("exp", exp))]).unwrap().record
    };
    assert_eq!(record([0, 1, 2]), record([2, 0, 1]));
}

/// The message for one declaration over the text `x`.
fn message(dec_one: impl FnOnce(Token) -> NodeDescription) -> String {
    let mut builder = SheetBuilder::new();
    let x = builder.word("x");
    let error = builder.finish_named([dec(dec_one(x))]).expect_err("doesn't fit the schema");
    error.to_string()
}

const AT: &str = "at decs[0].dec_with_tail.dec_in_seqs[0].dec_one";

#[test]
fn unknown_names_are_told() {
    assert_eq!(message(|_| node("Nothing")), format!("{AT}: no node is named Nothing"));
    assert_eq!(
        message(|x| node("DoDec").with("expr", x)),
        format!("{AT}: DoDec has no field expr, its fields are [exp]")
    );
    assert_eq!(
        message(|x| node("InfixDec").with("int_lit", x).with("int_lit", x)),
        format!("{AT}: InfixDec has int_lit twice")
    );
}

#[test]
fn unfitting_parts_are_told() {
    assert_eq!(
        message(|_| node("WildcardExp")),
        format!("{AT}: the field is a form DecOne, not node WildcardExp")
    );
    assert_eq!(
        message(|x| node("DoDec").with("exp", x)),
        format!("{AT}.exp: the field is a form Exp, not token 0")
    );
    assert_eq!(
        message(|x| node("NonfixDec").with("name_star_eqs", x)),
        format!("{AT}.name_star_eqs: the field is a list of token, not token 0")
    );
    assert_eq!(
        message(|x| node("NonfixDec").with("name_star_eqs", [Some(x), None])),
        format!("{AT}.name_star_eqs[1]: the field is a list of token, not absent")
    );
    assert_eq!(
        message(|_| node("NonfixDec").with("name_star_eqs", None::<Token>)),
        format!("{AT}.name_star_eqs: the field is a list of token, not absent")
    );
    assert_eq!(
        message(|x| node("ValDec").with("val_binds", [node("ExBind").with("name_star_eq", x)])),
        format!("{AT}.val_binds[0]: the field is a list of group ValBind, not node ExBind")
    );
}

#[test]
fn numbers_that_do_not_fit_are_told() {
    assert_eq!(
        message(|x| node("DoDec").with("exp", node("HoleExp").first(x))),
        format!("{AT}.exp: HoleExp is no declaration and has no first token")
    );
    assert_eq!(
        message(|_| node("HoleDec").first(Token(1))),
        format!("{AT}: the text has no token 1")
    );
    assert_eq!(
        message(|x| node("NonfixDec").with("name_star_eqs", vec![x; 65_536])),
        format!("{AT}.name_star_eqs: a list of 65536 items is over 65,535")
    );
}

#[test]
fn tokens_that_cannot_be_written_are_told() {
    let message = |text: &str| {
        let mut builder = SheetBuilder::unlimited();
        builder.word("x");
        builder.word(text);
        builder.finish_named([]).unwrap_err().to_string()
    };
    assert_eq!(message(""), "token 1 is empty");
    assert_eq!(message(&"x".repeat(65_536)), "token 1 is over 65,535 bytes");
    let mut builder = SheetBuilder::unlimited();
    for _ in 0..65_536 {
        builder.word("x");
    }
    let error = builder.finish_named([]).unwrap_err();
    assert_eq!(error.problem, Problem::TooManyTokens(65_535));
}

#[test]
fn deep_descriptions_need_no_deep_stack() {
    let nested = |levels| {
        let exp = (0..levels).fold(node("HoleExp"), |exp, _| node("ParenExp").with("exp", exp));
        SheetBuilder::unlimited().finish_named([dec(node("DoDec").with("exp", exp))])
    };
    // The record of each level is one byte longer.
    assert_eq!(nested(200_000).unwrap().record.len(), nested(0).unwrap().record.len() + 200_000);
}
