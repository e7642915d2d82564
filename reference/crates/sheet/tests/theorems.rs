//! The sheets of the theorems in `crates/theorems/proofs/Sheets.antt` are the lettered sheets: the same
//! texts, the same records byte for byte.

use sheet::lettered;
use std::collections::BTreeMap;

/// The name of a sheet there, and here: `g_above` is the sheet `G-above`.
fn name(theorem: &str) -> String {
    match theorem {
        "g" => "G-left".to_owned(),
        "l" => "L-import".to_owned(),
        "l_comment" => "L-import-with-comment".to_owned(),
        other => other[..1].to_uppercase() + &other[1..].replace('_', "-"),
    }
}

/// What stands between double quotes; the file has no escapes there.
fn quoted(line: &str) -> impl Iterator<Item = &str> {
    line.split('"').skip(1).step_by(2)
}

fn bytes(hexadecimal: &str) -> impl Iterator<Item = u8> + '_ {
    let byte = |byte| u8::from_str_radix(byte, 16).unwrap_or_else(|_| panic!("{byte:?}"));
    hexadecimal.split_whitespace().map(byte)
}

/// The definitions whose names begin so, each with what follows its sign of equality.
fn definitions<'a>(file: &'a str, head: &str) -> BTreeMap<&'a str, &'a str> {
    let defined = |part: &'a str| {
        let (signature, rest) = part.split_once(" : List ℕ\n")?;
        let name = signature.strip_prefix("pub ").unwrap_or(signature).strip_prefix(head)?;
        Some((name, rest.split("\n\n").next()?))
    };
    file.split("abbrev ").filter_map(defined).collect()
}

#[test]
fn theorems_are_about_the_lettered_sheets() {
    let path = concat!(env!("CARGO_MANIFEST_DIR"), "/../../../crates/theorems/proofs/Sheets.antt");
    let file = std::fs::read_to_string(path).unwrap_or_else(|error| panic!("{path}: {error}"));
    let (texts, records) = (definitions(&file, "text_"), definitions(&file, "rec_"));
    assert_eq!(texts.keys().collect::<Vec<_>>(), records.keys().collect::<Vec<_>>());
    let sheets: BTreeMap<_, _> = lettered::all().into_iter().collect();
    for (theorem, text) in &texts {
        let sheet = &sheets[name(theorem).as_str()];
        let text: Vec<_> = quoted(text).collect();
        assert_eq!(text, [std::str::from_utf8(&sheet.text).unwrap()], "{theorem}");
        let record: Vec<_> = quoted(records[theorem]).flat_map(bytes).collect();
        assert_eq!(record, sheet.record, "{theorem}");
    }
    let named: Vec<_> = texts.keys().map(|theorem| name(theorem)).collect();
    for sheet in sheets.keys().filter(|sheet| !sheet.starts_with(['M', 'N'])) {
        assert!(named.iter().any(|name| name == sheet), "no theorem about {sheet}");
    }
}
