//! Bytes of a text that are no character.

use std::fmt;

/// The bytes of a broken character, at most three, written in hexadecimal.
#[derive(Debug, Clone, Copy, PartialEq, Eq, Hash)]
pub struct Bytes {
    bytes: [u8; 3],
    count: usize,
}

impl Bytes {
    /// Those that a text starts with, as `str::from_utf8` cuts them; none where it starts with a
    /// character.
    #[must_use]
    pub fn broken(text: &[u8]) -> Self {
        let error = std::str::from_utf8(text).err().filter(|error| error.valid_up_to() == 0);
        let count = error.map_or(0, |error| error.error_len().unwrap_or(text.len()));
        let mut bytes = [0; 3];
        bytes[..count].copy_from_slice(&text[..count]);
        Self { bytes, count }
    }
}

impl fmt::Display for Bytes {
    fn fmt(&self, f: &mut fmt::Formatter<'_>) -> fmt::Result {
        let bytes = self.bytes[..self.count].iter();
        let written: Vec<_> = bytes.map(|byte| format!("0x{byte:02X}")).collect();
        f.write_str(&written.join(" "))
    }
}

#[cfg(test)]
mod tests {
    use super::Bytes;

    #[test]
    fn broken_characters() {
        let said = |text: &[u8]| Bytes::broken(text).to_string();
        assert_eq!(said(b"\x80"), "0x80");
        assert_eq!(said(b"\xE2\x82"), "0xE2 0x82");
        assert_eq!(said(b"\xF0\x9F\x98"), "0xF0 0x9F 0x98");
        assert_eq!(said(b"\xE2\x82a"), "0xE2 0x82");
        assert_eq!(said("é".as_bytes()), "");
    }
}
