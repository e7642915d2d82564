//! The texts of tokens.

use crate::rng::Rng;
use schema::Node;

/// Names as they stand in programs.
const PLAIN: &[&str] =
    &["x", "y", "f", "xs", "foo", "Foo", "A", "SOME", "int", "t", "it'", "a_b", "x1", "S", "Z"];
/// Symbolic names.
const SYMBOLIC: &[&str] = &["!", "|>", "+", "::", "*", "=", "!!", "|", "#", "<=", "~", "->", ">"];
/// Names at the borders of the letter and digit tests.
const ODD: &[&str] =
    &["'a", "'", "_", "_x", "1st", "0", "9x", "@", "[", "`", "{", "/", ":", "z", "a", "!x", "|>x"];
/// Special constants.
const CONSTANTS: &[&str] =
    &["1", "0xFF", "\"s\"", "#\"c\"", "~1", "3.14", "\"(* s *)\"", "\"a  b\"", "0w7"];
/// White space between tokens.
const GAPS: &[&str] = &[
    " ",
    " ",
    " ",
    " ",
    "\n",
    "\n  ",
    "\t",
    "\r\n",
    "\r",
    "\x0B",
    "\x0C",
    "  \n\n\t",
    " \x0C\x0B ",
];
/// White space at the ends of a comment's token.
const EDGES: &[&str] =
    &["", "", "", "", " ", "\n", "\t", "\r\n", "\x0B", "\x0C", " \t\n\x0B\x0C\r ", "\x08", "\x0E"];

/// The text for a field that is a token.
pub fn of_field(rng: &mut Rng, node: Node, accessor: &str) -> &'static str {
    match accessor {
        "op_kw" => "op",
        "l_round" => "(",
        "semicolon" => ";",
        "rec_kw" => "rec",
        "ty_head" => rng.pick(&["type", "eqtype"]),
        "ascription" => rng.pick(&[":", ":>"]),
        "int_lit" => rng.pick(&["0", "5", "9", "10"]),
        "ty_var" => rng.pick(&["'a", "''b", "'_1", "'"]),
        "s_con" => rng.pick(CONSTANTS),
        "lab" if rng.chance(1, 3) => rng.pick(&["1", "2", "10"]),
        "name_star_eq" if node == Node::InfixExp && rng.chance(1, 3) => "|>",
        _ => name(rng),
    }
}

/// A name.
pub fn name(rng: &mut Rng) -> &'static str {
    match rng.below(8) {
        0..=3 => rng.pick(PLAIN),
        4 | 5 => rng.pick(SYMBOLIC),
        _ => rng.pick(ODD),
    }
}

/// A name for the function of an `AppExp`, often `!` or one that begins so.
pub fn func(rng: &mut Rng) -> &'static str {
    if rng.chance(1, 2) {
        rng.pick(&["!", "!", "!", "!!", "!x"])
    } else {
        name(rng)
    }
}

/// A name for the argument of an `AppExp`: a letter, a symbol or a digit first.
pub fn arg(rng: &mut Rng) -> &'static str {
    let names = rng.pick(&[PLAIN, SYMBOLIC, ODD, &["1", "9x"]]);
    rng.pick(names)
}

/// White space between tokens.
pub fn gap(rng: &mut Rng) -> &'static str {
    rng.pick(GAPS)
}

/// A block comment, now and then with white space at its ends.
pub fn comment(rng: &mut Rng) -> String {
    let inside = match rng.below(6) {
        0 => "(* c *)".to_owned(),
        1 => "(**)".to_owned(),
        2 => format!("(*{}a{}*)", rng.pick(EDGES), rng.pick(EDGES)),
        3 => String::new(),
        _ => doc(rng),
    };
    let comment = format!("{}{inside}{}", rng.pick(EDGES), rng.pick(EDGES));
    if comment.is_empty() {
        " ".to_owned()
    } else {
        comment
    }
}

/// A doc comment, now and then one that is not quite one.
fn doc(rng: &mut Rng) -> String {
    let ends = ["\n", "\n", "\n", "\r\n", "\r", "\r\r\n", "\n\n"];
    let first = ["(*!", "(*!", "(*!", "(*!", "(* !", "(*  !", "(*!!", "(*!*", "(*", "!"];
    let between = [" * a", " *  b", "*c", "no", "", " * d * e", " *", " * )", "\t*\tf", " * !"];
    let last = [" *)", " *)", " *)", "*)", "* )", "**)", " *) ", ")", " *)\r", ""];
    let mut comment = rng.pick(&first).to_owned();
    for _ in 0..rng.pick(&[0, 1, 1, 1, 2, 3]) {
        comment.push_str(rng.pick(&ends));
        comment.push_str(rng.pick(&between));
    }
    comment.push_str(rng.pick(&ends));
    comment.push_str(rng.pick(&last));
    comment
}

/// The words that stand before and behind a node's fields.
pub fn frame(node: Node) -> (&'static [&'static str], &'static [&'static str]) {
    match node {
        Node::HoleDec | Node::HoleExp | Node::HoleTy | Node::RestPatRow => (&["..."], &[]),
        Node::ValDec => (&["val"], &[]),
        Node::FunDec => (&["fun"], &[]),
        Node::DatDec | Node::DatCopyDec => (&["datatype"], &[]),
        Node::AbstypeDec => (&["abstype"], &["end"]),
        Node::ExDec => (&["exception"], &[]),
        Node::OpenDec => (&["open"], &[]),
        Node::InfixDec => (&["infix"], &[]),
        Node::InfixrDec => (&["infixr"], &[]),
        Node::NonfixDec => (&["nonfix"], &[]),
        Node::DoDec => (&["do"], &[]),
        Node::LocalDec => (&["local"], &["end"]),
        Node::StructureDec => (&["structure"], &[]),
        Node::SignatureDec => (&["signature"], &[]),
        Node::FunctorDec => (&["functor"], &[]),
        Node::IncludeDec => (&["include"], &[]),
        Node::EsImportDec => (&["import"], &[]),
        _ => frame_inside(node),
    }
}

/// [`frame`] for nodes that are no declarations.
fn frame_inside(node: Node) -> (&'static [&'static str], &'static [&'static str]) {
    match node {
        Node::LocalDecTl => (&["in"], &[]),
        Node::WithType => (&["withtype"], &[]),
        Node::SharingTail => (&["sharing", "type"], &[]),
        Node::StructStrExp => (&["struct"], &["end"]),
        Node::SigSigExp => (&["sig"], &["end"]),
        Node::LetExp | Node::LetStrExp => (&["let"], &["end"]),
        Node::EqExp | Node::EqTy | Node::EqStrExp | Node::EqConBinds => (&["="], &[]),
        Node::OfTy => (&["of"], &[]),
        Node::TyAnnotation => (&[":"], &[]),
        Node::AsPatTail => (&["as"], &[]),
        Node::WildcardExp | Node::WildcardPat | Node::WildcardTy => (&["_"], &[]),
        Node::OpAndalsoExp => (&["op", "andalso"], &[]),
        Node::OpOrelseExp => (&["op", "orelse"], &[]),
        Node::IfExp => (&["if"], &[]),
        Node::WhileExp => (&["while"], &[]),
        Node::CaseExp => (&["case"], &[]),
        Node::FnExp => (&["fn"], &[]),
        Node::RaiseExp => (&["raise"], &[]),
        Node::SelectorExp => (&["#"], &[]),
        Node::ParenExp | Node::TupleExp | Node::SeqExp => (&["("], &[")"]),
        Node::ParenPat | Node::TuplePat | Node::ParenTy | Node::TySeq => (&["("], &[")"]),
        Node::ListExp | Node::ListPat => (&["["], &["]"]),
        Node::VectorExp | Node::VectorPat => (&["#"], &[]),
        Node::RecordExp | Node::RecordPat | Node::RecordTy => (&["{"], &["}"]),
        _ => (&[], &[]),
    }
}

/// The word that stands between two items of a list.
pub fn separator(accessor: &str) -> Option<&'static str> {
    match accessor {
        "val_binds" | "fun_binds" | "ty_binds" | "dat_binds" | "ex_binds" | "str_binds"
        | "sig_binds" | "functor_binds" => Some("and"),
        "exp_args" | "pat_args" | "exp_rows" | "pat_rows" | "ty_rows" | "ty_args"
        | "ty_var_args" => Some(","),
        "fun_bind_cases" | "con_binds" | "arms" => Some("|"),
        "star_tys" => Some("*"),
        "name_star_eq_dots" => Some("."),
        "path_eqs" => Some("="),
        _ => None,
    }
}
