//! The port's calls, compared with the reference.
//!
//! The public calls are those of the library `diverplume`. Behind safe wrappers here are the calls
//! for tests, which stand in an archive of their own. Each answer is an array that the call fills;
//! the wrappers fill it with [`UNWRITTEN`] before.

pub mod compare;
mod count;
mod parallel;
pub mod run;
pub mod scan;
mod skip;
pub mod texts;

pub use count::{Compared, Numbers};
pub use parallel::in_parallel;

use schema::{limit, Family};

/// What stands in an answer before a call.
pub const UNWRITTEN: u64 = 0x5A5A_5A5A_5A5A_5A5A;

// A slice is passed as its pointer and its length.
extern "C" {
    fn diverplume_test_read(
        text: *const u8,
        text_length: usize,
        record: *const u8,
        record_length: usize,
        answer: &mut [u64; 4],
        kinds: &mut [u8; limit::TOKENS],
        spans: &mut [u32; limit::TOKENS],
    );
    fn diverplume_test_classes(table: &mut [u8; 256]);
    fn diverplume_test_is_letter(byte: u8) -> bool;
    fn diverplume_test_is_digit(byte: u8) -> bool;
    fn diverplume_test_exp_end(
        record: *const u8,
        record_length: usize,
        count: u64,
        at: u64,
        answer: &mut [u64; 2],
    );
    fn diverplume_test_ty_end(
        record: *const u8,
        record_length: usize,
        count: u64,
        at: u64,
        answer: &mut [u64; 2],
    );
}

/// The table of letters and digits: `a`, `9` or `-` for each byte.
#[must_use]
pub fn classes() -> [u8; 256] {
    let mut table = [0; 256];
    // SAFETY: the pointer is that of an array of 256 bytes.
    unsafe { diverplume_test_classes(&mut table) };
    table
}

/// Whether the port takes a byte for an ASCII letter.
#[must_use]
pub fn is_letter(byte: u8) -> bool {
    // SAFETY: the call takes any byte.
    unsafe { diverplume_test_is_letter(byte) }
}

/// Whether the port takes a byte for an ASCII digit.
#[must_use]
pub fn is_digit(byte: u8) -> bool {
    // SAFETY: the call takes any byte.
    unsafe { diverplume_test_is_digit(byte) }
}

/// What the record check gives.
#[derive(Debug, Clone, PartialEq, Eq)]
pub struct Reading {
    /// Number, place, count of tokens, where the list of declarations starts.
    pub answer: [u64; 4],
    /// Kind, start and length of each token.
    pub tokens: Vec<(u8, u16, u16)>,
}

/// The tables that the record check fills.
#[derive(Debug)]
pub struct Tables {
    kinds: [u8; limit::TOKENS],
    spans: [u32; limit::TOKENS],
}

impl Tables {
    /// Tables of zeros.
    #[must_use]
    pub fn new() -> Self {
        Self { kinds: [0; limit::TOKENS], spans: [0; limit::TOKENS] }
    }

    /// The record check: number, place, count of tokens, where the list of declarations starts.
    pub fn read(&mut self, text: &[u8], record: &[u8]) -> [u64; 4] {
        let mut answer = [UNWRITTEN; 4];
        // SAFETY: each pointer comes from a slice or array of the length passed with it.
        unsafe {
            diverplume_test_read(
                text.as_ptr(),
                text.len(),
                record.as_ptr(),
                record.len(),
                &mut answer,
                &mut self.kinds,
                &mut self.spans,
            );
        }
        answer
    }
}

impl Default for Tables {
    fn default() -> Self {
        Self::new()
    }
}

/// The record check, with the tokens.
///
/// # Panics
///
/// Where the call gives more tokens than the tables have entries.
#[must_use]
pub fn read(text: &[u8], record: &[u8]) -> Reading {
    let mut tables = Tables::new();
    let answer = tables.read(text, record);
    let count = usize::try_from(answer[2]).expect("a count of tokens");
    let Tables { kinds, spans } = tables;
    let tokens = (0..count)
        .map(|token| (kinds[token], (spans[token] >> 16) as u16, (spans[token] & 0xFFFF) as u16))
        .collect();
    Reading { answer, tokens }
}

/// The end of a field that holds an expression or a type: 0, 3 or 4, and a place.
///
/// # Panics
///
/// For another family; the port has no call for it.
#[must_use]
pub fn end(family: Family, record: &[u8], count: u64, at: u64) -> [u64; 2] {
    let call = match family {
        Family::Exp => diverplume_test_exp_end,
        Family::Ty => diverplume_test_ty_end,
        _ => panic!("no call for the end of a {}", family.name()),
    };
    let mut answer = [UNWRITTEN; 2];
    // SAFETY: the pointer comes from a slice of the length passed with it.
    unsafe { call(record.as_ptr(), record.len(), count, at, &mut answer) };
    answer
}
