//! What is refused, with what is said.

use diverplume_sheet::{sheet, File, Reason};

fn refused(reason: Reason, texts: &[(&str, &str)]) {
    for (text, expected) in texts {
        let error = sheet(text).map(|_| text).unwrap_err();
        assert_eq!((error.to_string().as_str(), error.reason), (*expected, reason), "{text}");
    }
}

#[test]
fn broken_tokens() {
    refused(
        Reason::Syntax,
        &[
            ("val x\n(* (* *)", "2:1: this comment has no end; \"*)\" is expected"),
            (
                "val x = \"a\n\"",
                "1:9: this quote begins no string constant; a closing quote on the same line is \
                 expected, with printable ASCII and escapes before it",
            ),
            ("val x = \u{1}", "1:9: no token begins with the byte 0x01"),
            ("(* e *) val x = 1_000", "1:18: white space behind the number is expected, not \"_\""),
            ("val x = 0b11", "1:10: white space behind the number is expected, not \"b11\""),
        ],
    );
}

#[test]
fn core() {
    refused(
        Reason::Syntax,
        &[
            ("val late\n  = then", "2:5: an expression is expected, not \"then\""),
            ("val = 1", "1:5: a pattern is expected, not \"=\""),
            ("val x =", "1:8: an expression is expected, not the end"),
            ("val x : 1", "1:9: a type is expected, not \"1\""),
            ("val x", "1:6: \"=\" is expected, not the end"),
            ("val x = (1", "1:11: \",\", \";\" or \")\" is expected, not the end"),
            ("val x = (1, 2", "1:14: \",\" or \")\" is expected, not the end"),
            ("val x = [1 2, 3", "1:16: \",\" or \"]\" is expected, not the end"),
            ("val x = a +", "1:12: an expression is expected, not the end"),
            ("val x = + a", "1:9: an expression is expected, not \"+\""),
            ("val x = a + fn y => y", "1:13: \"fn\" is expected in parentheses here"),
            ("val x = if a then b", "1:20: \"else\" is expected, not the end"),
            ("val x = case a of b", "1:20: \"=>\" is expected, not the end"),
            ("val x = let val y = 1 end", "1:23: a declaration or \"in\" is expected, not \"end\""),
            ("val x = let in a b", "1:19: \";\" or \"end\" is expected, not the end"),
            ("fun f 1", "1:8: \"=\" is expected, not the end"),
            ("fun f = 1", "1:7: a pattern is expected, not \"=\""),
            ("fun 1 f = 1", "1:7: an infix name is expected, not \"f\""),
            ("type 1", "1:6: a name is expected, not \"1\""),
            ("type t", "1:7: \"=\" is expected, not the end"),
            ("datatype t =", "1:13: a name is expected, not the end"),
            ("infix 12 a", "1:7: a name is expected, not \"12\""),
            ("end", "1:1: a declaration is expected, not \"end\""),
            ("f x val y = 1", "1:5: \";\" is expected, not \"val\""),
        ],
    );
}

#[test]
fn modules() {
    refused(
        Reason::Syntax,
        &[
            ("structure S : A", "1:16: \"=\" is expected, not the end"),
            ("structure S = 1", "1:15: a structure is expected, not \"1\""),
            (
                "structure S = A.F (X)",
                "1:19: a functor's name without dots is expected before this parenthesis",
            ),
            (
                "structure S = struct val x = 1",
                "1:31: a declaration or \"end\" is expected, not the end",
            ),
            (
                "signature S = sig fun f end",
                "1:19: a specification or \"end\" is expected, not \"fun\"",
            ),
            ("signature S = 1", "1:15: a signature is expected, not \"1\""),
            ("signature S = sig val x end", "1:25: \":\" is expected, not \"end\""),
            ("functor F X = A", "1:11: \"(\" is expected, not \"X\""),
            ("functor F (X) = A", "1:13: \":\" is expected, not \")\""),
        ],
    );
}

#[test]
fn what_formatting_would_lose() {
    refused(
        Reason::Loss,
        &[
            ("val 'a x = []", "1:5: type variables behind \"val\" would be lost; annotate the pattern instead"),
            ("val ('a, 'b) x = f", "1:5: type variables behind \"val\" would be lost; annotate the pattern instead"),
            ("val rec rec f = g", "1:9: a second \"rec\" would be lost; remove it"),
            ("val x = 1;;", "1:11: this semicolon has no declaration before it and would be lost; remove it"),
            ("val x = let in y; end", "1:17: the semicolon behind the last expression would be lost; remove it"),
            ("val x = (y; z;)", "1:14: the semicolon behind the last expression would be lost; remove it"),
            ("val x = case y of | A => 1", "1:19: the bar before the first case would be lost; remove it"),
            ("datatype t = op :: of int", "1:14: this \"op\" would be lost; remove it, no name needs it where it is bound"),
            ("val x = # *", "1:11: the \"#\" before \"*\" would become one name with it"),
            ("val x = ! ~1", "1:11: the \"!\" before \"~1\" would be written as one name with it; set parentheses"),
            (
                "signature S = A where type t = u and type v = w",
                "1:34: \"and type\" would be written as \"where type\"; write that here",
            ),
            (
                "signature S = sig structure A : B sharing A = C end",
                "1:35: \"sharing\" of structures would be written as \"sharing type\"; name the types that they share",
            ),
            (
                "val x = f (op *)",
                "1:16: the \"*\" before this parenthesis would be written without a space, which SML/NJ \
                 takes for the end of a comment; write fn (x, y) => x * y",
            ),
        ],
    );
    assert!(sheet("nonfix ** val x = ( ** )")
        .unwrap_err()
        .to_string()
        .starts_with("1:21: the parenthesis"));
}

#[test]
fn losses_are_told_in_order() {
    let file = File::parse(b"val 'a x = 1;; val y = (z;)").unwrap();
    let places: Vec<_> = file.losses().map(|loss| loss.at.column).collect();
    assert_eq!(places, [5, 14, 26]);
}

#[test]
fn limits() {
    let long = "val x = 1\n".repeat(1_000);
    let said = sheet(&long).unwrap_err();
    assert_eq!(
        said.to_string(),
        "683:9: the text has more than 4096 tokens up to here, the most that can be formatted; \
         split the file"
    );
    let long = format!("val x = \"{}\"", "a".repeat(32_768));
    let said = sheet(&long).unwrap_err().to_string();
    assert_eq!(said, "1:9: the text has 32778 bytes, the most is 32768; split the file");
    assert!(sheet("(* \u{e9} *) val x = 1").is_ok());
    let said = sheet("(* \u{e9} *) val \u{e9} = 1").unwrap_err().to_string();
    assert_eq!(said, "1:13: no token begins with the byte 0xC3");
}
