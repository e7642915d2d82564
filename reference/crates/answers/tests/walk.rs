//! Every node of the schema through the decoder and the Rust's walk.

use answers::{Origin, Reference};
use schema::{Choice, Family, FieldKind, Node, Part};
use sheet::{node, parts, NodeDescription, PartDescription, Sheet, SheetBuilder, Token};
use std::collections::BTreeSet;

/// A form of each family, as small as the walk accepts it.
fn leaf(family: Family, token: Token) -> NodeDescription {
    match family {
        Family::DecOne => node("HoleDec").first(token),
        Family::StrExp => node("PathStrExp").with("path", parts::path([token])),
        Family::SigExp => node("NameSigExp").with("name", token),
        Family::Exp => node("WildcardExp"),
        Family::Pat => node("WildcardPat"),
        Family::Ty => node("WildcardTy"),
    }
}

/// A node with all fields there and two items in each list; the names of its nodes go to `seen`.
fn full(kind: Node, which: u8, token: Token, seen: &mut BTreeSet<&'static str>) -> NodeDescription {
    seen.insert(kind.name());
    kind.fields().iter().fold(node(kind.name()), |description, field| {
        let mut part = || -> PartDescription {
            match field.kind.part() {
                Part::Token => token.into(),
                Part::Group(group) => full(group, which, token, seen).into(),
                Part::Choice(choice) => full(held(choice, which), which, token, seen).into(),
                Part::Form(family) => leaf(family, token).into(),
            }
        };
        match field.kind {
            FieldKind::One(_) => description.with(field.accessor, part()),
            FieldKind::List(_) => description.with(field.accessor, vec![part(), part()]),
        }
    })
}

fn held(choice: Choice, which: u8) -> Node {
    choice.node(which).unwrap_or(choice.nodes()[0])
}

/// A sheet with this form in a place where its family may stand.
fn sheet_with(family: Family, form: impl FnOnce(Token) -> NodeDescription) -> Sheet {
    let mut builder = SheetBuilder::new();
    let x = builder.word("x");
    let form = form(x);
    let dec_one = match family {
        Family::DecOne => form.first(x),
        Family::StrExp => {
            let eq = node("EqStrExp").with("str_exp", form);
            node("StructureDec")
                .with("str_binds", [node("StrBind").with("name", x).with("eq_str_exp", eq)])
        }
        Family::SigExp => node("IncludeDec").with("sig_exps", [form]),
        Family::Exp => node("ExpDec").with("exp", form),
        Family::Pat => node("ValDec").with("val_binds", [node("ValBind").with("pat", form)]),
        Family::Ty => {
            let bind = node("TyBind").with("name", x).with("eq_ty", node("EqTy").with("ty", form));
            node("TyDec").with("ty_head", x).with("ty_binds", [bind])
        }
    };
    builder.finish_named([parts::dec(dec_one)]).expect("fits the schema")
}

/// Every form with every choice.
fn forms() -> impl Iterator<Item = (Family, Node, u8)> {
    let forms = Family::ALL
        .iter()
        .flat_map(|&family| family.forms().iter().map(move |&form| (family, form)));
    forms.flat_map(|(family, form)| (0..3).map(move |which| (family, form, which)))
}

#[test]
fn every_node_is_walked() {
    let mut seen = BTreeSet::from([Node::Root.name()]);
    for (family, form, which) in forms() {
        let sheet = sheet_with(family, |token| full(form, which, token, &mut seen));
        let verdict = Reference::new(&sheet).check().value;
        // The import stands behind one token and nine bytes.
        let expected = if form == Node::EsImportDec { (14, 13) } else { (0, 0) };
        assert_eq!((verdict.number, verdict.place), expected, "{}", form.name());
    }
    let all: BTreeSet<_> = Node::ALL.iter().map(|node| node.name()).collect();
    assert_eq!(seen, all);
}

#[test]
fn check_and_get_agree_and_lengths_follow_from_the_measures() {
    for (family, form, which) in forms() {
        let sheet = sheet_with(family, |token| full(form, which, token, &mut BTreeSet::new()));
        let reference = Reference::new(&sheet);
        let check = reference.check().value;
        for tab_size in [0, 1, 2, 5] {
            let get = reference.get(tab_size, usize::MAX);
            assert_eq!((get.value.verdict, get.origin), (check, Origin::Rust));
            if let Some(text) = get.value.text {
                assert_eq!(text.len() as u128, check.measures.length(tab_size), "{}", form.name());
            }
        }
    }
}

#[test]
fn a_form_without_fields_is_stopped_or_accepted() {
    for (family, form, _) in forms().filter(|(.., which)| *which == 0) {
        let sheet = sheet_with(family, |_| node(form.name()));
        let number = Reference::new(&sheet).check().value.number;
        let expected = match form {
            Node::EsImportDec => 14,
            _ if first_required(form) => 13,
            _ => 0,
        };
        assert_eq!(number, expected, "{}", form.name());
    }
}

/// Whether the walk stops at one of the form's fields when all are absent.
fn first_required(form: Node) -> bool {
    let optional = ["rec_kw", "op_kw", "l_round", "int_lit", "with_type", "ty_var_seq"];
    let optional_in_form = match form {
        Node::LocalDec => vec!["local_dec_hd", "local_dec_tl"],
        Node::ConPat => vec!["pat"],
        Node::ConTy => vec!["ty_seq"],
        Node::HandleExp | Node::CaseExp => vec!["matcher"],
        _ => vec![],
    };
    form.fields().iter().any(|field| {
        matches!(field.kind, FieldKind::One(_))
            && !optional.contains(&field.accessor)
            && !optional_in_form.contains(&field.accessor)
    })
}

#[test]
fn fields_are_read_in_the_order_of_the_record() {
    let mut builder = SheetBuilder::new();
    let [a, b, c, plus] = builder.words(["a", "b", "c", "+"]);
    let infix_exp = node("InfixExp")
        .with("name_star_eq", plus)
        .with("lhs", parts::path_exp(a))
        .with("rhs", parts::path_exp(b));
    let infix_pat = node("InfixPat")
        .with("lhs", parts::con_pat(a))
        .with("name_star_eq", plus)
        .with("rhs", parts::con_pat(b));
    let bind = node("ValBind").with("pat", infix_pat).with("eq_exp", parts::eq_exp(infix_exp));
    let where_sig_exp = node("WhereSigExp")
        .with("sig_exp", node("NameSigExp").with("name", a))
        .with("lhs", parts::path([b, c]))
        .with("rhs", parts::path([c]));
    let decs = [
        node("ValDec").with("val_binds", [bind]),
        node("IncludeDec").with("sig_exps", [where_sig_exp]),
        node("InfixDec").with("int_lit", c).with("name_star_eqs", [b, a]),
    ];
    let sheet = builder.finish_named(decs.map(parts::dec)).unwrap();
    let text = Reference::new(&sheet).get(2, 1_000).value.text;
    let expected = "val a + b = a + b\n\ninclude a where b.c = c\n\ninfix c b a";
    assert_eq!(text.as_deref(), Some(expected));
}

#[test]
fn all_comments_left_stand_in_the_set() {
    // Three of 130 tokens are comments; the declaration takes out the one above it.
    let mut builder = SheetBuilder::new();
    let tokens: Vec<_> = (0..130)
        .map(|number| builder.word(if [63, 64, 129].contains(&number) { "(*c*)" } else { ";" }))
        .collect();
    let sheet = |first| {
        let dec = parts::dec(node("HoleDec").first(first));
        builder.clone().finish_named([dec]).unwrap()
    };
    // The place is the offset of the first left; the comments are five bytes long.
    for (first, place, words) in [
        (2, 63, [1 << 63, 1, 1 << 1]),
        (63, 68, [0, 1, 1 << 1]),
        (128, 63, [1 << 63, 0, 1 << 1]),
        (129, 63, [1 << 63, 1, 0]),
    ] {
        let verdict = Reference::new(&sheet(tokens[first])).check().value;
        assert_eq!((verdict.number, verdict.place), (6, place), "first token {first}");
        assert_eq!(verdict.set[..3], words, "first token {first}");
        assert_eq!(verdict.set[3..], [0; 61], "first token {first}");
    }
}

#[test]
fn local_without_parts_is_accepted() {
    let sheet = sheet_with(Family::DecOne, |_| node("LocalDec"));
    let text = Reference::new(&sheet).get(2, 100).value.text;
    assert_eq!(text.as_deref(), Some("local\n  \nin\n  \nend"));
}

#[test]
fn a_text_over_the_bound_is_left_to_arithmetic() {
    let reference = Reference::new(&sheet::lettered::c()).with_text_bound(37);
    let answer = reference.get(2, 38);
    assert_eq!((answer.value.verdict.number, answer.origin), (0, Origin::Arithmetic));
    assert_eq!(answer.value.text, None);
    let answer = reference.with_text_bound(38).get(2, 38);
    assert_eq!(answer.origin, Origin::Rust);
    assert_eq!(answer.value.text.map(|text| text.len()), Some(38));
}

#[test]
fn a_refusal_at_a_tab_size_out_of_the_rusts_domain_is_the_checks() {
    // Depth 2 is formed, then an absent part stops the walk.
    let arm = |exp| node("Arm").with("pat", node("WildcardPat")).with("exp", exp);
    let matcher = node("Matcher").with("arms", [arm(node("WhileExp"))]);
    let sheet = sheet_with(Family::Exp, |_| node("FnExp").with("matcher", matcher));
    let reference = Reference::new(&sheet);
    for (tab_size, origin) in [(2, Origin::Rust), (u32::MAX, Origin::Arithmetic)] {
        let answer = reference.get(tab_size, usize::MAX);
        assert_eq!((answer.value.verdict.number, answer.origin), (13, origin));
        assert_eq!(answer.value.verdict, reference.check().value);
    }
}

#[test]
fn check_and_get_agree_on_damaged_records() {
    let mut decoded = 0;
    for (name, mut sheet) in sheet::lettered::all().into_iter().filter(|(name, _)| *name < "N") {
        for at in 0..sheet.record.len() {
            for byte in [0x00, 0x01, 0x02, 0x05, 0x10, 0x23, 0x41, 0x60, 0x6B, 0x71] {
                let before = std::mem::replace(&mut sheet.record[at], byte);
                let reference = Reference::new(&sheet);
                let get = reference.get(2, usize::MAX).value.verdict;
                assert_eq!(reference.check().value, get, "{name} at {at}: {byte:#x}");
                decoded += usize::from(reference.root().is_some());
                sheet.record[at] = before;
            }
        }
    }
    assert!(decoded > 1_000, "{decoded} damaged records were decoded");
}

/// Checks that a sheet of that many levels is accepted, and one with one more level is 4.
fn deep(levels: usize, outer: impl Fn(NodeDescription) -> NodeDescription) {
    for (levels, number) in [(levels, 0), (levels + 1, 4)] {
        let innermost = node("HoleDec");
        let dec_one = (0..levels).fold(innermost, |dec_one, _| outer(parts::dec(dec_one)));
        let sheet = SheetBuilder::unlimited().finish_named([parts::dec(dec_one)]).unwrap();
        let reference = Reference::new(&sheet);
        assert_eq!(reference.check().value.number, number);
        assert_eq!(reference.get(1, usize::MAX).value.verdict.number, number);
    }
}

#[test]
fn deep_nesting_needs_no_deep_stack() {
    // Each level is one form or two, the innermost declaration one more.
    deep(199, |dec| node("LocalDec").with("local_dec_tl", node("LocalDecTl").with("decs", [dec])));
    deep(99, |dec| node("ExpDec").with("exp", node("LetExp").with("decs", [dec])));
    deep(199, |dec| node("AbstypeDec").with("decs", [dec]));
}
