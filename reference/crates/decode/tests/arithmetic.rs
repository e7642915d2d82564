//! Numbers 7 to 9, and the program's input and line.

use decode::program::{line, Input};
use decode::{token_bound, Measures};

/// Sheet C's measures.
const C: Measures = Measures { deepest: 2, letters: 26, units: 6 };

#[test]
fn number_7_before_8() {
    assert_eq!(C.bounds(2_147_483_647, usize::MAX), 0);
    assert_eq!(C.bounds(2_147_483_648, usize::MAX), 7);
    assert_eq!(C.bounds(2_147_483_648, 0), 7);
    assert_eq!(C.bounds(2_147_483_647, 0), 8);
    assert_eq!(Measures { deepest: 1, ..C }.bounds(u32::MAX, usize::MAX), 0);
    assert_eq!(Measures { deepest: 0, units: 0, ..C }.bounds(u32::MAX, 26), 0);
}

#[test]
fn number_8_output_too_short() {
    assert_eq!(C.length(2), 38);
    assert_eq!(C.bounds(2, 38), 0);
    assert_eq!(C.bounds(2, 37), 8);
    // The length passes 32 bits.
    assert_eq!(C.length(2_147_483_647), 26 + 6 * 2_147_483_647);
    let most = Measures { deepest: 1, letters: u64::MAX, units: u64::MAX };
    assert_eq!(most.bounds(u32::MAX, usize::MAX), 8);
}

#[test]
fn number_9_token_not_below_the_count() {
    assert_eq!(token_bound(6, 7), 0);
    assert_eq!(token_bound(7, 7), 9);
    assert_eq!(token_bound(0, 0), 9);
    assert_eq!(token_bound(0xFFFF, 7), 9);
    assert_eq!(token_bound(u64::MAX, 7), 9);
}

#[test]
fn input_is_taken_apart() {
    let input = Input { tab_size: 0x0403_0201, text: b"xy", record: &[9, 8] };
    let bytes = [1, 2, 3, 4, 2, 0, b'x', b'y', 9, 8];
    assert_eq!(Input::parse(&bytes), Some(input));
    assert_eq!(input.to_bytes().as_deref(), Some(&bytes[..]));
    // Shorter than it says; an empty record is not.
    assert_eq!(Input::parse(&bytes[..8]).map(|input| input.record.len()), Some(0));
    for length in 0..8 {
        assert_eq!(Input::parse(&bytes[..length]), None, "{length}");
    }
}

#[test]
fn input_past_the_limits() {
    let parses = |text: usize, record: usize| {
        let input = Input { tab_size: 0, text: &vec![b' '; text], record: &vec![0; record] };
        Input::parse(&input.to_bytes().unwrap()).is_some()
    };
    assert!(parses(32_768, 65_536));
    assert!(!parses(32_769, 0));
    assert!(!parses(65_535, 0));
    assert!(!parses(0, 65_537));
    let long = Input { tab_size: 0, text: &vec![0; 65_536], record: &[] };
    assert_eq!(long.to_bytes(), None);
}

#[test]
fn line_is_five_numbers() {
    assert_eq!(line(0, 0, C), "0 0 2 26 6\n");
    assert_eq!(line(3, 65_536, Measures::default()), "3 65536 0 0 0\n");
}
