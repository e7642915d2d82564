//! How operators bind, and where fixity directives hold.

use diverplume_record::{NodeDescription, PartDescription};
use diverplume_sheet::tokens_and_tree;

/// The bodies of the bindings in a text whose words have one space between, an inner one before
/// that in which it stands: parentheses round each application and each operator with its operands,
/// other tokens one behind the other.
fn joined(text: &str) -> Vec<String> {
    let (_, decs) = tokens_and_tree(text).unwrap_or_else(|error| panic!("{text}\n{error}"));
    let words: Vec<_> = text.split(' ').collect();
    let mut found = Vec::new();
    for dec in &decs {
        node(dec.as_ref(), &words, &mut found);
    }
    found
}

/// A node as text; bodies of bindings are added to those found.
fn node(at: &NodeDescription, words: &[&str], found: &mut Vec<String>) -> String {
    let parts: Vec<_> = at.fields().map(|(_, part)| self::part(part, words, found)).collect();
    match (at.name(), parts.as_slice()) {
        ("InfixExp", [name, lhs, rhs]) | ("InfixPat", [lhs, name, rhs]) => {
            format!("({lhs} {name} {rhs})")
        }
        ("AndalsoExp", [lhs, rhs]) => format!("({lhs} andalso {rhs})"),
        ("OrelseExp", [lhs, rhs]) => format!("({lhs} orelse {rhs})"),
        ("TypedExp" | "TypedPat", [exp, ty]) => format!("({exp} : {ty})"),
        ("AppExp", [func, arg]) => format!("({func} {arg})"),
        ("FnTy", [param, res]) => format!("({param} -> {res})"),
        ("EqExp", [exp]) => {
            found.push(exp.clone());
            String::new()
        }
        _ => parts.concat(),
    }
}

fn part(at: &PartDescription, words: &[&str], found: &mut Vec<String>) -> String {
    match at {
        PartDescription::Absent => String::new(),
        // The words are every second token.
        PartDescription::Token(token) => words[token.index() / 2].to_owned(),
        PartDescription::Node(inside) => node(inside, words, found),
        PartDescription::List(items) => {
            items.iter().map(|item| part(item, words, found)).collect::<Vec<_>>().concat()
        }
    }
}

fn body(text: &str) -> String {
    joined(&format!("val x = {text}")).concat()
}

#[test]
fn initial_fixities() {
    let bodies = [
        ("a + b * c - d", "((a + (b * c)) - d)"),
        ("a :: b @ c :: d", "(a :: (b @ (c :: d)))"),
        ("a = b :: c", "(a = (b :: c))"),
        ("a := b o c before d", "(((a := b) o c) before d)"),
        ("f a + g b c", "((f a) + ((g b) c))"),
        ("a |> b |> c", "((a |> b) |> c)"),
        ("a div b mod c / d", "(((a div b) mod c) / d)"),
        ("a ^ b <> c", "((a ^ b) <> c)"),
    ];
    for (text, expected) in bodies {
        assert_eq!(body(text), expected);
    }
}

#[test]
fn operators_of_expressions() {
    let bodies = [
        ("a andalso b orelse c andalso d", "((a andalso b) orelse (c andalso d))"),
        ("a orelse b andalso c", "(a orelse (b andalso c))"),
        ("a andalso b : t orelse c", "((a andalso (b : t)) orelse c)"),
        ("a + b : t : u", "(((a + b) : t) : u)"),
        ("a andalso b = c", "(a andalso (b = c))"),
        ("a : t -> u -> v", "(a : (t -> (u -> v)))"),
    ];
    for (text, expected) in bodies {
        assert_eq!(body(text), expected);
    }
}

#[test]
fn infix_patterns() {
    let (_, decs) = tokens_and_tree("val a :: b :: c = x").unwrap();
    let words: Vec<_> = "val a :: b :: c = x".split(' ').collect();
    assert_eq!(node(decs[0].as_ref(), &words, &mut Vec::new()), "(a :: (b :: c))");
}

#[test]
fn directives_hold_in_their_scope() {
    let bodies = [
        // To the end of the file, in what follows.
        ("val x = a ++ b infix 6 ++ val y = a ++ b * c", "((a ++) b);(a ++ (b * c))"),
        ("infix 6 ++ infixr 6 ++ val y = a ++ b ++ c", "(a ++ (b ++ c))"),
        ("nonfix + val y = a + b", "((a +) b)"),
        ("infix 1 + val y = a + b * c = d", "(a + ((b * c) = d))"),
        // To the end of the structure or of the expression.
        ("structure S = struct infix ++ val x = a ++ b end val y = a ++ b", "(a ++ b);((a ++) b)"),
        ("val x = let infix ++ val z = a ++ b in a end val y = a ++ b", "(a ++ b);++za;((a ++) b)"),
        // What the first part of `local` says ends with it, what the second says does not.
        (
            "local infix ++ in val x = a ++ b infix -- end val y = a ++ b -- c",
            "(a ++ b);(((a ++) b) -- c)",
        ),
        ("structure S = F ( infix ++ val x = a ++ b ) val y = a ++ b", "(a ++ b);((a ++) b)"),
        ("abstype t = T with infix ++ end val y = a ++ b", "(a ++ b)"),
    ];
    for (text, expected) in bodies {
        assert_eq!(joined(text).join(";"), expected, "{text}");
    }
}

#[test]
fn long_names_and_op_are_not_infix() {
    let bodies = [("f op + a", "((f op+) a)"), ("f A . + b", "((f A+) b)"), ("o . a b", "(oa b)")];
    for (text, expected) in bodies {
        assert_eq!(body(text), expected);
    }
}
