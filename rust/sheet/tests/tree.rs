//! What the tree of a file says of its text.

use diverplume_sheet::File;

/// The texts of a file's declarations, with the names of their forms.
fn declarations(text: &str) -> Vec<(&'static str, &str)> {
    let file = File::parse(text.as_bytes()).unwrap();
    let found = file.declarations().into_iter();
    found.map(|declaration| (declaration.form, &text[declaration.range])).collect()
}

#[test]
fn declarations_have_a_first_and_a_last_token() {
    let inner = "val y = (1, 2)";
    let text = format!("(* a *) val x = let {inner} in y end; (* b *) f x ; open A.B");
    let outer = format!("val x = let {inner} in y end");
    assert_eq!(
        declarations(&text),
        [("ValDec", outer.as_str()), ("ValDec", inner), ("ExpDec", "f x"), ("OpenDec", "open A.B")]
    );
}

#[test]
fn specifications_are_declarations() {
    let text = "signature S = sig type t; val x : t (* c *) sharing type t = u end";
    let found = declarations(text);
    assert_eq!(found[1..], [("TyDec", "type t"), ("ValDec", "val x : t")]);
}

#[test]
fn trees_are_the_same_whatever_stands_between() {
    let texts = ["val x=(1,2)", "val x = (* c *) (1,\n2)", "val x = (1, 3)", "val x = [1, 2]"];
    let [tight, wide, other, list] = texts.map(|text| File::parse(text.as_bytes()).unwrap());
    assert_eq!(tight.same_tree(&wide), Ok(()));
    let difference = tight.same_tree(&other).unwrap_err();
    assert_eq!((difference.first, difference.second), (9, 12));
    assert!(tight.same_tree(&list).is_err());
}
