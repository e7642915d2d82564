//! Document 02, Ticket 5: texts in UTF-8, against the Rust's own `str::from_utf8` and `str::trim`.

use diverplume::{get, scan, Number};
use port::run::run_accented;
use port::{in_parallel, Tables};
use sheet::{lettered, Sheet};

/// Compares number 2 and its place with `str::from_utf8`.
fn same_refusal(tables: &mut Tables, text: &[u8]) -> Result<u64, String> {
    let [number, place, ..] = tables.read(text, &[]);
    let broken = std::str::from_utf8(text).err().map(|error| error.valid_up_to() as u64);
    let told = (number == 2).then_some(place);
    if told == broken {
        return Ok(1);
    }
    Err(format!("{text:02X?}: {told:?}, from_utf8 {broken:?}"))
}

#[test]
fn every_string_of_up_to_three_bytes() {
    let compared = in_parallel(256, |first| {
        let first = first as u8;
        let mut tables = Tables::new();
        let mut compared = same_refusal(&mut tables, &[first])?;
        for second in 0..=u8::MAX {
            compared += same_refusal(&mut tables, &[first, second])?;
            for third in 0..=u8::MAX {
                compared += same_refusal(&mut tables, &[first, second, third])?;
            }
        }
        Ok::<u64, String>(compared)
    });
    assert_eq!(compared, Ok(256 + 256 * 256 + 256 * 256 * 256));
}

/// Any first byte, then bytes at the borders of the ranges: by themselves, before an ASCII letter, and
/// behind three, where a text is tested many bytes at a time.
#[test]
fn strings_of_four_bytes_at_the_borders() {
    const BORDERS: [u8; 16] = [
        0x00, 0x7F, 0x80, 0x81, 0x8F, 0x90, 0x9F, 0xA0, 0xBE, 0xBF, 0xC0, 0xC2, 0xE0, 0xED, 0xF4,
        0xFF,
    ];
    let compared = in_parallel(256, |first| {
        let mut tables = Tables::new();
        let mut compared = 0;
        for number in 0..16 * 16 * 16 {
            let [second, third, fourth] =
                [number / 256, number / 16 % 16, number % 16].map(|at| BORDERS[at]);
            let text = [b'a', b'b', b'c', first as u8, second, third, fourth, b'x'];
            for part in [3..7, 3..8, 0..7, 0..8] {
                compared += same_refusal(&mut tables, &text[part])?;
            }
        }
        Ok::<u64, String>(compared)
    });
    assert_eq!(compared, Ok(4 * 256 * 16 * 16 * 16));
}

/// The place is the first byte of the character, also behind other text.
#[test]
fn places_of_broken_characters() {
    let place = |text: &[u8]| {
        let [number, place, ..] = Tables::new().read(text, &[]);
        (number == 2).then_some(place)
    };
    assert_eq!(place(b"a\xE2\x82"), Some(1));
    assert_eq!(place(b"\xC3("), Some(0));
    assert_eq!(place(b"\xE0\x80\x80"), Some(0));
    assert_eq!(place(b"\xED\xA0\x80"), Some(0));
    assert_eq!(place(b"\xF4\x90\x80\x80"), Some(0));
    assert_eq!(place(b"a\x80"), Some(1));
    assert_eq!(place("é€😀".as_bytes()), None);
    let long = [&b"x".repeat(32_766)[..], b"\xC3"].concat();
    assert_eq!(place(&long), Some(32_766));
}

/// The sheet with another text of a token.
fn with_token(sheet: Sheet, number: usize, token: &str) -> Sheet {
    let Sheet { mut text, mut record } = sheet;
    let length =
        |at: usize| usize::from(u16::from_le_bytes([record[4 * at + 2], record[4 * at + 3]]));
    let start = (0..number).map(length).sum::<usize>();
    text.splice(start..start + length(number), token.bytes());
    let length = u16::try_from(token.len()).expect("a short token");
    record[4 * number + 2..4 * number + 4].copy_from_slice(&length.to_le_bytes());
    Sheet { text, record }
}

/// What is written of a sheet at tab size 2.
fn written(sheet: &Sheet) -> String {
    let mut output = [0; 64];
    let verdict = get(&sheet.text, &sheet.record, 2, &mut output);
    assert_eq!(verdict.number, Number::Accepted, "{sheet:?}");
    let length = usize::try_from(verdict.measures.length(2)).expect("short");
    std::str::from_utf8(&output[..length]).expect("well-formed").to_owned()
}

/// What is written of a comment above `val x = 1`: sheet F with another comment.
fn with_comment(comment: &str) -> String {
    written(&with_token(lettered::f(), 0, comment))
}

#[test]
fn every_scalar_value_at_both_ends_of_a_comment() {
    let compared = in_parallel(0x1100, |block| {
        let mut compared = 0_u64;
        for code in block as u32 * 256..(block as u32 + 1) * 256 {
            let Some(end) = char::from_u32(code) else { continue };
            let comment = format!("{end}(* a *){end}");
            let (given, expected) =
                (with_comment(&comment), format!("{}\nval x = 1", comment.trim()));
            if given != expected {
                return Err(format!("U+{code:04X}: {given:?}, not {expected:?}"));
            }
            compared += 1;
        }
        Ok(compared)
    });
    assert_eq!(compared, Ok(0x11_0000 - 0x800));
}

#[test]
fn white_space_is_stripped_by_characters() {
    for (comment, trimmed) in [
        ("(* a *)\u{e0}", "(* a *)\u{e0}"),
        ("(* a *)\u{a0}", "(* a *)"),
        ("\u{200b}(* a *)\u{feff}", "\u{200b}(* a *)\u{feff}"),
        ("\u{180e}(* a *)\u{180e}", "\u{180e}(* a *)\u{180e}"),
        ("\u{3000}\u{85} (* \u{a0} *)\u{2028}\t\u{205f}", "(* \u{a0} *)"),
        ("\u{a0}\u{2003}", ""),
    ] {
        assert_eq!(with_comment(comment), format!("{trimmed}\nval x = 1"));
    }
}

/// A name that begins with a byte of 128 or more is not alphanumeric: sheet I, `val p = op +`.
#[test]
fn letter_tests_know_ascii_only() {
    let op = |name| written(&with_token(lettered::i(), 8, name));
    assert_eq!(op("+"), "val p = op+");
    assert_eq!(op("\u{e9}"), "val p = op\u{e9}");
    assert_eq!(op("e\u{301}"), "val p = op e\u{301}");
}

/// Nor is it a letter: `AppExp` writes its space behind `!`. Sheet I with an application in place of its path.
#[test]
fn a_wide_name_behind_a_bang_is_symbolic() {
    let applied = |name| {
        let Sheet { text, record } = with_token(with_token(lettered::i(), 6, "!"), 8, name);
        let op = [0x45, 0x01, 6, 0];
        let at = record.windows(4).position(|bytes| *bytes == op).expect("`op` and a path");
        let path = |token| [0x45, 0x00, 0x03, 0x02, 1, 0, 0x03, 0x01, token, 0];
        let parts = [&record[..at], &[0x4E], &path(6), &path(8), &record[at + 12..]];
        written(&Sheet { text, record: parts.concat() })
    };
    assert_eq!(applied("x"), "val p = !x");
    assert_eq!(applied("+"), "val p = ! +");
    assert_eq!(applied("\u{e9}"), "val p = ! \u{e9}");
}

/// A token that ends inside a character is 3 at its command, and the first to be told.
#[test]
fn tokens_end_at_characters() {
    let read = |text: &str, record: &[u8]| {
        let [number, place, ..] = Tables::new().read(text.as_bytes(), record);
        (number, place)
    };
    let tree = [0x02, 0, 0];
    let tokens = |lengths: &[u8]| -> Vec<u8> {
        let tokens = lengths.iter().flat_map(|&length| [0x05, 0, length, 0]);
        tokens.chain(tree).collect()
    };
    assert_eq!(read("é", &tokens(&[1, 1])), (3, 0));
    assert_eq!(read("é", &tokens(&[2])), (0, 0));
    assert_eq!(read("a€b", &tokens(&[1, 3, 1])), (0, 0));
    assert_eq!(read("a€b", &tokens(&[1, 2, 2])), (3, 4));
    assert_eq!(read("a😀", &tokens(&[1, 3, 1])), (3, 4));
}

#[test]
fn the_scanner_takes_wide_bytes_in_comments() {
    let refused = |text: &str| {
        let refusal = scan(text.as_bytes()).unwrap_err();
        (refusal.number, refusal.place)
    };
    assert_eq!(scan("(* é€😀 *)".as_bytes()).unwrap().len(), 1);
    assert_eq!(refused("x \"é\""), (Number::NoString, 2));
    assert_eq!(refused("x é"), (Number::BeginsNoToken, 2));
    assert_eq!(refused("x \u{a0}"), (Number::BeginsNoToken, 2));
}

#[test]
fn generated_sheets_with_accents() {
    let compared = run_accented(1, 20_000).unwrap_or_else(|differing| panic!("{differing}"));
    println!("{compared}");
    assert_eq!(compared.sheets, 20_000);
}
