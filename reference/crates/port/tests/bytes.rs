//! Letters and digits, on all 256 bytes.

use port::{classes, is_digit, is_letter};

#[test]
fn letters_and_digits_are_those_of_ascii() {
    for byte in 0..=u8::MAX {
        assert_eq!(is_letter(byte), byte.is_ascii_alphabetic(), "byte {byte}");
        assert_eq!(is_digit(byte), byte.is_ascii_digit(), "byte {byte}");
    }
}

#[test]
fn the_table_has_an_entry_for_each_byte() {
    for (byte, entry) in (0..=u8::MAX).zip(classes()) {
        let expected = match byte {
            _ if byte.is_ascii_alphabetic() => b'a',
            _ if byte.is_ascii_digit() => b'9',
            _ => b'-',
        };
        assert_eq!(entry, expected, "byte {byte}");
    }
}
