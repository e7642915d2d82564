//! Corners of the grammar, the limits, the kinds.

use decode::{number, Refusal};
use scan::corners::{all, limits, Expected};
use scan::{commands, kind, scan, write, Answer, Token, WORDS};
use schema::SyntaxKind;

#[test]
fn corners() {
    for (text, expected) in all() {
        let tokens = scan(text.as_bytes());
        match expected {
            Expected::Tokens(texts) => {
                assert_eq!(texts.concat(), text, "the tokens listed tile the text");
                let tokens = tokens.unwrap_or_else(|refusal| panic!("{text}: {refusal:?}"));
                let lengths: Vec<_> = tokens.iter().map(|token| token.length).collect();
                let listed: Vec<_> = texts.iter().map(|text| text.len()).collect();
                assert_eq!(lengths, listed, "{text}");
            }
            Expected::Refused(number, place) => {
                assert_eq!(tokens, Err(Refusal { number, place }), "{text}");
            }
        }
    }
    assert!(all().count() > 100);
}

#[test]
fn at_the_limits() {
    for limit in limits() {
        let answer = scan(&limit.text).map(|tokens| tokens.len());
        let answer = answer.map_err(|refusal| (refusal.number, refusal.place));
        assert_eq!(answer, limit.answer, "{}", limit.name);
    }
}

#[test]
fn kinds_of_words() {
    for (word, expected) in WORDS.into_iter().zip(2..) {
        assert_eq!(SyntaxKind::of_text(word.as_bytes()).number(), expected, "{word}");
        assert_eq!(scan(word.as_bytes()), Ok(vec![Token { kind: expected, length: word.len() }]));
    }
    for other in ["val'", "Val", "va", "while", "where", ".", "..", "=", "infixl", "\"val\"", " "] {
        assert_eq!(kind(other.as_bytes()), 0, "{other}");
    }
    assert_eq!(kind(b"(* val *)"), 1);
}

#[test]
fn written() {
    let scanned = scan(b"val (**)");
    let expected = [5, 4, 3, 0, 5, 0, 1, 0, 5, 1, 4, 0];
    assert_eq!(commands(scanned.as_ref().unwrap()), expected);
    let mut output = [0xA5; 14];
    let accepted = Answer { number: number::ACCEPTED, place: 0, written: 12 };
    assert_eq!(write(&scanned, &mut output), accepted);
    assert_eq!((&output[..12], &output[12..]), (&expected[..], &[0xA5; 2][..]));
    let mut output = [0xA5; 11];
    let short = Answer { number: number::OUTPUT_TOO_SHORT, place: 0, written: 0 };
    assert_eq!(write(&scanned, &mut output), short);
    let refused = Answer { number: number::NO_STRING, place: 1, written: 0 };
    assert_eq!(write(&scan(b";\""), &mut output), refused);
    assert_eq!(output, [0xA5; 11]);
    let long = Answer { number: number::TOO_LONG, place: 0, written: 0 };
    assert_eq!(write(&scan(&[b';'; 4_097]), &mut []), long);
}
