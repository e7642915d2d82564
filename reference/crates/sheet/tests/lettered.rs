//! The lettered sheets: A's bytes, and the texts of 01.

use sheet::lettered;

#[test]
fn sheet_a_has_the_66_bytes_of_01() {
    let sheet = lettered::a();
    let listed = "05 04 03 00 \
        05 00 01 00 05 00 01 00 05 00 01 00 05 00 01 00 05 00 01 00 05 00 01 00 \
        02 01 00 03 03 02 01 00 03 11 00 00 02 01 00 03 00 62 00 03 02 01 00 03 01 02 00 00 03 44 \
        01 06 00 00 02 00 00 00";
    let listed: Vec<_> =
        listed.split(' ').map(|byte| u8::from_str_radix(byte, 16).unwrap()).collect();
    assert_eq!(listed.len(), 66);
    assert_eq!(sheet.record, listed);
    assert_eq!(sheet.text, b"val x = 1");
}

#[test]
fn lettered_sheets_have_the_texts_of_01() {
    let listed = [
        ("A", "val x = 1"),
        ("B", "fun f x = 1"),
        ("C", "val x = if a then b else c"),
        ("D", "datatype t = A"),
        ("E", "datatype t = A | B"),
        ("F", "(* c *) val x = 1"),
        ("G-left", "val x = (* c *) 1"),
        ("G-above", "val x = (* c *) 1 val y = 2"),
        ("H", "(* c *) val x = 1 f"),
        ("I", "val p = op +"),
        ("J", "val x = let val y = 1 in y; end"),
    ];
    let sheets = lettered::all();
    for (name, text) in listed {
        let (_, sheet) = sheets.iter().find(|(other, _)| *other == name).expect(name);
        assert_eq!(sheet.text, text.as_bytes(), "{name}");
    }
}
