//! The schema against the source texts of 000 and 001.

use schema::{Choice, Family, Node, SyntaxKind};

mod accessors;
mod lex;

/// The source text of a crate beside this one.
fn source(krate: &str) -> String {
    let path = format!("{}/../{krate}/src/lib.rs", env!("CARGO_MANIFEST_DIR"));
    std::fs::read_to_string(&path).unwrap_or_else(|error| panic!("{path}: {error}"))
}

/// The words W of all `ast::sum::W` in order, each once.
fn variants<'a>(words: &[&'a str], sum: &str) -> Vec<&'a str> {
    let mut found = Vec::new();
    for window in words.windows(5) {
        if window[..4] == ["ast", "::", sum, "::"] && !found.contains(&window[4]) {
            found.push(window[4]);
        }
    }
    found
}

fn names(nodes: &[Node]) -> Vec<&'static str> {
    nodes.iter().map(|node| node.name()).collect()
}

#[test]
fn fields_stand_in_the_order_first_named_in_000() {
    let text = source("sml-naive-fmt");
    let named = accessors::first_named(&lex::words(&text));
    for &node in Node::ALL {
        let fields: Vec<_> = node.fields().iter().map(|field| field.accessor).collect();
        let in_source = named.get(node.name()).cloned().unwrap_or_default();
        assert_eq!(fields, in_source, "fields of {}", node.name());
    }
}

#[test]
fn forms_stand_in_the_order_of_the_match_arms() {
    let text = source("sml-naive-fmt");
    let words = lex::words(&text);
    let walks = [
        (Family::DecOne, "get_dec_one"),
        (Family::StrExp, "get_str_exp"),
        (Family::SigExp, "get_sig_exp"),
        (Family::Exp, "get_exp"),
        (Family::Pat, "get_pat"),
        (Family::Ty, "get_ty"),
    ];
    assert_eq!(walks.map(|(family, _)| family), Family::ALL);
    for (family, walk) in walks {
        let head = words.windows(2).position(|pair| pair == ["fn", walk]).expect(walk);
        let body = &words[head + 1..];
        let end = body.iter().position(|&word| word == "fn").unwrap_or(body.len());
        assert_eq!(names(family.forms()), variants(&body[..end], family.name()));
    }
}

#[test]
fn choices_stand_in_match_order() {
    let text = source("sml-naive-fmt");
    let words = lex::words(&text);
    for choice in Choice::ALL {
        assert_eq!(names(choice.nodes()), variants(&words, choice.name()));
    }
}

#[test]
fn families_take_the_commands_of_01() {
    let ranges = [
        (0x10, 0x23), // declarations
        (0x28, 0x2C), // structure expressions
        (0x30, 0x33), // signature expressions
        (0x40, 0x58), // expressions
        (0x60, 0x6B), // patterns
        (0x70, 0x78), // types
    ];
    for (family, (first, last)) in Family::ALL.iter().zip(ranges) {
        let commands: Vec<_> =
            family.forms().iter().map(|&form| family.command(form).unwrap()).collect();
        assert_eq!(commands, (first..=last).collect::<Vec<u8>>(), "{}", family.name());
        assert_eq!(family.form(first - 1), None);
        assert_eq!(family.form(last + 1), None);
        assert_eq!(family.form(last), family.forms().last().copied());
    }
    assert_eq!(Family::ALL.len(), ranges.len());
}

#[test]
fn only_declarations_have_a_first_token() {
    for &family in Family::ALL {
        assert_eq!(family.has_first_token(), family == Family::DecOne);
    }
}

#[test]
fn kinds_stand_in_the_order_of_comment_above() {
    let text = source("sml-comment");
    let words = lex::words(&text);
    let named = words.windows(3).filter(|window| window[..2] == ["SK", "::"]);
    let named: Vec<_> = named.map(|window| window[2].to_owned()).collect();
    let kinds: Vec<_> = SyntaxKind::ALL[1..].iter().map(|kind| format!("{kind:?}")).collect();
    assert_eq!(named, kinds);
    assert_eq!(SyntaxKind::Other.number(), 0);
    assert_eq!(SyntaxKind::BlockComment.number(), 1);
    assert_eq!(SyntaxKind::DotDotDot.number(), 2);
    assert_eq!(SyntaxKind::AndKw.number(), 3);
    assert_eq!(SyntaxKind::ValKw.number(), 4);
    assert_eq!(SyntaxKind::IncludeKw.number(), 20);
    assert_eq!(SyntaxKind::of_number(21), None);
}

#[test]
fn names_are_found_again() {
    for &node in Node::ALL {
        assert_eq!(Node::named(node.name()), Some(node));
    }
    assert_eq!(Node::named("NoSuchNode"), None);
}
