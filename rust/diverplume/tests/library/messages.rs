//! What verdicts say in words.

use crate::sheets;
use diverplume::record::{Node, Sheet};
use diverplume::{check, comment_above, doc_comment_above, format, get, Number};

fn refusal(text: &[u8], record: &[u8]) -> String {
    let said = check(text, record).to_string();
    // A lookup says the same of the sheet itself.
    let is_of_the_walk = ["(6)", "(13)", "(14)"].iter().any(|number| said.contains(number));
    assert!(is_of_the_walk || said == comment_above(text, record, 0).to_string());
    said
}

#[test]
fn accepted() {
    let Sheet { text, record } = sheets::conditional();
    let said = check(&text, &record).to_string();
    assert_eq!(said, "accepted: deepest 2, 26 letters, 6 units");
    assert_eq!(comment_above(&text, &record, 0).to_string(), "none found");
    let Sheet { text, record } = sheets::commented("(* c *)");
    let found = |token| comment_above(&text, &record, token).to_string();
    assert_eq!(found(0), "found: token 0");
    assert_eq!(found(2), "found: token 0, across the keyword at token 2");
}

#[test]
fn number_1() {
    assert_eq!(
        refusal(&vec![b' '; 32_769], &[]),
        "refused (1): the text has 32769 bytes and the record 0, the most are 32768 and 65536; \
         split the file into several sheets"
    );
}

#[test]
fn number_2() {
    assert_eq!(
        refusal(b"(* \xC3\xA9 *)\n(* \xC3\xA9\xE2\x82 *)", &[]),
        "refused (2): 0xE2 0x82 at line 2, column 5 of the text (offset 14) is no character in \
         UTF-8; save the file in UTF-8"
    );
    assert!(refusal(&[0x80], &[]).contains("at line 1, column 1 of the text (offset 0)"));
    assert!(refusal(&[b'\n', 0xFF], &[]).contains("at line 2, column 1 of the text (offset 1)"));
}

#[test]
fn number_3() {
    let Sheet { text, mut record } = sheets::conditional();
    record.truncate(record.len() - 1);
    let again = "; write the record again, for example with diverplume::record";
    let end = record.len();
    assert_eq!(
        refusal(&text, &record),
        format!(
            "refused (3): the record is malformed at offset {end}, its end: a command is missing \
             there{again}"
        )
    );
    let at = record.iter().position(|&byte| byte == 0x62).unwrap();
    record[at] = 0x41;
    let fault = "the command 0x41 (WildcardExp) does not fit there";
    let expected = format!("refused (3): the record is malformed at offset {at}: {fault}{again}");
    assert_eq!(refusal(&text, &record), expected);
    record[at] = 0xF0;
    assert!(refusal(&text, &record).contains(": there is no command 0xF0;"));
    record[0..4].copy_from_slice(&[0x05, 4, 0, 0]);
    assert!(refusal(&text, &record).contains("at offset 0: the command 0x05 (token) does not"));
    assert!(refusal(b"xy", &[0x05, 0, 1, 0, 0x02, 0, 0])
        .contains("at offset 4: the tokens cover 1 of the text's 2 bytes;"));
}

#[test]
fn number_4() {
    let Sheet { text, record } = sheets::parentheses(199);
    let at = record.iter().rposition(|&byte| byte == 0x40).unwrap();
    assert_eq!(
        refusal(&text, &record),
        format!(
            "refused (4): the form HoleExp (0x40) at offset {at} of the record stands inside 200 \
             others, the most there may be; give an inner part a declaration of its own"
        )
    );
}

#[test]
fn number_6() {
    let Sheet { text, record } = sheets::with_comments_inside(&["(* c *)"]);
    assert_eq!(
        refusal(&text, &record),
        "refused (6): a comment stands where formatting would lose it, the first at line 2, column \
         3 of the text (offset 10); move it above a declaration"
    );
    let Sheet { text, record } = sheets::with_comments_inside(&["(* c *)", "(* d *)"]);
    assert!(refusal(&text, &record).contains(": 2 comments stand where formatting would lose them"));
}

#[test]
fn numbers_7_and_8() {
    let Sheet { text, record } = sheets::conditional();
    let wide = format(&text, &record, 1 << 31).unwrap_err().to_string();
    assert_eq!(
        wide,
        "declined (7): an indent of 2 levels at tab size 2147483648 is over 4294967295 spaces; \
         take a smaller tab size"
    );
    let short = get(&text, &record, 2, &mut [0; 37]).to_string();
    assert_eq!(
        short,
        "declined (8): the formatted text has 38 bytes, the output 37; lend an output of at least \
         38 bytes"
    );
    let Sheet { text, record } = sheets::commented("(*!\n * why\n *)");
    let short = doc_comment_above(&text, &record, 2, &mut [0; 2]).to_string();
    assert_eq!(
        short,
        "declined (8): the doc text has more than the output's 2 bytes; an output as long as the \
         sheet's text is long enough"
    );
}

#[test]
fn number_9() {
    let Sheet { text, record } = sheets::commented("(* c *)");
    let past = comment_above(&text, &record, 9).to_string();
    assert_eq!(
        past,
        "declined (9): there is no token 9, the sheet has 9 tokens, numbered from 0; ask for one \
         of these"
    );
}

#[test]
fn number_13() {
    let Sheet { text, record } = sheets::without_value();
    assert_eq!(
        refusal(&text, &record),
        "refused (13): ValDec at offset 37 of the record: the `exp` of its binding's `eq_exp` is \
         missing, behind the token at line 2, column 5 of the text (offset 16); complete the file's \
         syntax there"
    );
    let verdict = check(&text, &record);
    assert_eq!((verdict.number, verdict.place), (Number::Missing, 57));
    let stop = verdict.stop().expect("what is missing");
    assert_eq!((stop.form, stop.field), (Some((Node::ValDec, 37)), Some("exp")));
    assert_eq!(stop.token.map(|(offset, _)| offset), Some(16));
}

#[test]
fn number_14() {
    let Sheet { text, record } = sheets::import();
    assert_eq!(
        refusal(&text, &record),
        "refused (14): EsImportDec at offset 21 of the record, line 1, column 1 of the text (offset \
         0): an import is not formatted; keep imports out of the file"
    );
    assert!(check(b"", &[]).stop().is_none());
}
