//! What the tests share.

use diverplume::format;
use diverplume_sheet::File;

/// The formatted text at tab size 2. It has to parse to the same tree, and formatting it again has
/// to change nothing.
pub fn formatted(text: &str) -> String {
    let once = |text: &str| {
        let file = File::parse(text.as_bytes()).unwrap_or_else(|error| panic!("{text}\n{error}"));
        let sheet = file.sheet().unwrap_or_else(|error| panic!("{text}\n{error}"));
        let bytes = format(&sheet.text, &sheet.record, 2).unwrap_or_else(|error| panic!("{error}"));
        String::from_utf8(bytes).expect("ASCII")
    };
    let formatted = once(text);
    let files = [text, &formatted].map(|text| File::parse(text.as_bytes()).expect("it is parsed"));
    assert_eq!(files[0].same_tree(&files[1]), Ok(()), "{text}");
    assert_eq!(once(&formatted), formatted);
    formatted
}
