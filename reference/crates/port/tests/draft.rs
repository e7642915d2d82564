//! Texts about as long as the drafts that `get` writes before it accepts the sheet.

use answers::Reference;
use diverplume::{check, get};
use sheet::{lettered, Sheet};

/// The lengths of the drafts: `SHORT_DRAFT`, `MIDDLE_DRAFT` and `DRAFT` in crates/formatter/src/lib.rt. A record takes the
/// first that is as long as it is.
const DRAFTS: [usize; 3] = [4096, 16_384, 65_536];

/// 01's limit: with as many tokens a record is longer than the second draft.
const MAX_TOKENS: usize = 4096;

/// What an output holds where nothing is written.
const BLANK: u8 = b'.';

/// Compares one call with the reference. Gives whether the text was written.
fn written(sheet: &Sheet, reference: &Reference, tab_size: u32, length: usize) -> bool {
    let formatted = reference.get(tab_size, length).value;
    let mut expected = vec![BLANK; length];
    if let Some(text) = &formatted.text {
        expected[..text.len()].copy_from_slice(text.as_bytes());
    }
    let mut output = vec![BLANK; length];
    let verdict = get(&sheet.text, &sheet.record, tab_size, &mut output);
    let call = format!("tab size {tab_size}, {length} bytes");
    assert_eq!(verdict.number as u8, formatted.verdict.number, "{call}");
    assert!(output == expected, "{call}");
    formatted.text.is_some()
}

/// Compares texts about as long as each draft. `sheet` has one indent of depth 1, so that every length has a tab size.
fn compare(sheet: &Sheet) {
    let measures = check(&sheet.text, &sheet.record).measures;
    assert_eq!(measures.units, 1);
    let reference = Reference::new(sheet);
    for length in DRAFTS.into_iter().flat_map(|draft| draft - 2..=draft + 2) {
        let tab_size = (length as u64 - measures.letters).try_into().expect("a tab size");
        assert!(!written(sheet, &reference, tab_size, length - 1));
        assert!(written(sheet, &reference, tab_size, length));
        assert!(written(sheet, &reference, tab_size, length + 1));
    }
}

#[test]
fn texts_about_as_long_as_a_draft() {
    compare(&lettered::e());
}

/// Tokens of one space behind the others, four bytes of the record each, make the record as long as a draft allows, and longer.
#[test]
fn records_about_as_long_as_a_draft() {
    let sheet = lettered::e();
    let tokens = sheet.record.iter().step_by(4).take_while(|&&byte| byte == 5).count();
    for draft in [DRAFTS[0], DRAFTS[1]] {
        for spaces in [(draft - sheet.record.len()) / 4, (draft / 4).min(MAX_TOKENS - tokens)] {
            let mut longer = sheet.clone();
            longer.text.extend(vec![b' '; spaces]);
            longer.record.splice(4 * tokens..4 * tokens, [5, 0, 1, 0].repeat(spaces));
            compare(&longer);
        }
    }
}
