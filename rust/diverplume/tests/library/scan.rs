//! The tokens of a text.

use diverplume::record::SyntaxKind;
use diverplume::{check, scan, scan_into, Number};

#[test]
fn kinds_and_ranges() {
    let text = b"val (* a *)\n x...";
    let tokens = scan(text).unwrap();
    let expected = [
        (SyntaxKind::ValKw, 0..3),
        (SyntaxKind::Other, 3..4),
        (SyntaxKind::BlockComment, 4..11),
        (SyntaxKind::Other, 11..13),
        (SyntaxKind::Other, 13..14),
        (SyntaxKind::DotDotDot, 14..17),
    ];
    assert_eq!(tokens.iter().collect::<Vec<_>>(), expected);
    assert_eq!((tokens.len(), tokens.iter().len(), tokens.is_empty()), (6, 6, false));
    let mut seen = 0;
    for (kind, range) in &tokens {
        assert_eq!(kind, SyntaxKind::of_text(&text[range]));
        seen += 1;
    }
    assert_eq!(seen, 6);
}

#[test]
fn no_tokens() {
    let tokens = scan(b"").unwrap();
    assert!(tokens.is_empty() && tokens.iter().next().is_none());
    assert_eq!(scan_into(b"", &mut []), Ok(0));
}

#[test]
fn commands_stand_in_front_of_a_tree() {
    let text = b"val x = \"\\n\"";
    let tokens = scan(text).unwrap();
    let commands = tokens.commands();
    assert_eq!(commands[..8], [0x05, 4, 3, 0, 0x05, 0, 1, 0]);
    let verdict = check(text, &[commands, &[0x02, 0, 0]].concat());
    assert!(verdict.is_accepted(), "{verdict}");
}

#[test]
fn scan_into_writes_the_commands_and_nothing_else() {
    let mut output = [0xA5; 9];
    assert_eq!(scan_into(b"a;", &mut output), Ok(8));
    assert_eq!(output, [0x05, 0, 1, 0, 0x05, 0, 1, 0, 0xA5]);
    let mut output = [0xA5; 7];
    let refusal = scan_into(b"a;", &mut output).unwrap_err();
    assert_eq!((refusal.number, refusal.place), (Number::OutputTooShort, 0));
    let refusal = scan_into(b";\"", &mut output).unwrap_err();
    assert_eq!((refusal.number, refusal.place), (Number::NoString, 1));
    assert_eq!(output, [0xA5; 7]);
}

#[test]
fn the_most_tokens() {
    assert_eq!(scan(&[b';'; 4_096]).unwrap().len(), 4_096);
    let refusal = scan(&[b';'; 4_097]).unwrap_err();
    assert_eq!((refusal.number, refusal.place), (Number::TooLong, 0));
    let blanks = vec![b' '; 32_768];
    assert_eq!(scan(&blanks).unwrap().iter().next(), Some((SyntaxKind::Other, 0..32_768)));
}

fn refusal(text: &[u8]) -> String {
    scan(text).unwrap_err().to_string()
}

#[test]
fn messages_of_places() {
    assert_eq!(
        refusal(b"val x\n(* (* *)"),
        "refused (10): the comment that opens at line 2, column 1 of the text (offset 6) has no \
         end; close it, and each comment inside it, with *)"
    );
    assert_eq!(
        refusal(b"val x = \"a\n\""),
        "refused (11): the double quote at line 1, column 9 of the text (offset 8) begins no \
         string constant; close the string on its line, write control characters and bytes of 128 \
         and more as escapes such as \\n, \\009 or \\195, and a backslash as \\\\"
    );
    assert_eq!(
        refusal(b"val x\n = \x01"),
        "refused (12): no token begins with the byte 0x01 at line 2, column 4 of the text (offset \
         9); move it into a comment, or write it in a string constant as \\001"
    );
    assert_eq!(
        refusal("(* \u{e9} *) val \u{e9} = 2".as_bytes()),
        "refused (12): no token begins with the byte 0xC3 at line 1, column 13 of the text (offset \
         13); move it into a comment, or write it in a string constant as \\195"
    );
    let text = b"val x = 1\nval \xED\xA0\x80 = 2";
    assert_eq!(refusal(text), check(text, &[]).to_string());
}

#[test]
fn messages_of_limits() {
    assert_eq!(
        refusal(&vec![b' '; 32_769]),
        "refused (1): the text has 32769 bytes, the most are 32768; split the file"
    );
    assert_eq!(
        refusal(&[b';'; 4_097]),
        "refused (1): the text has over 4096 tokens, the most there may be; split the file"
    );
    let short = scan_into(b"a;", &mut [0; 7]).unwrap_err().to_string();
    assert_eq!(
        short,
        "declined (8): the tokens take more than the output's 7 bytes; an output of 8 bytes is \
         long enough"
    );
}
