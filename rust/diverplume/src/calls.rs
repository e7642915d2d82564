//! The calls of the archive.

use crate::message::Cause;
use crate::verdict::{CommentAbove, Lookup, Verdict, NUMBERS};

/// What stands in an answer before a call; no number of a verdict.
pub(crate) const UNWRITTEN: u64 = 0x5A5A_5A5A_5A5A_5A5A;

// A slice is passed as its pointer and its length, an array as its pointer.
extern "C" {
    fn diverplume_check(
        text: *const u8,
        text_length: usize,
        record: *const u8,
        record_length: usize,
        verdict: &mut [u64; NUMBERS],
    );
    fn diverplume_get(
        text: *const u8,
        text_length: usize,
        record: *const u8,
        record_length: usize,
        tab_size: u32,
        output: *mut u8,
        output_length: usize,
        verdict: &mut [u64; NUMBERS],
    );
    fn diverplume_comment_above(
        text: *const u8,
        text_length: usize,
        record: *const u8,
        record_length: usize,
        token: u64,
        answer: &mut [u64; 4],
    );
    fn diverplume_doc_comment_above(
        text: *const u8,
        text_length: usize,
        record: *const u8,
        record_length: usize,
        token: u64,
        output: *mut u8,
        output_length: usize,
        answer: &mut [u64; 3],
    );
}

/// Whether a sheet can be formatted; if so, its measures.
#[must_use]
pub fn check(text: &[u8], record: &[u8]) -> Verdict {
    let mut numbers = [UNWRITTEN; NUMBERS];
    let (text_at, record_at) = (text.as_ptr(), record.as_ptr());
    // SAFETY: each pointer comes from a slice of the length passed with it.
    unsafe { diverplume_check(text_at, text.len(), record_at, record.len(), &mut numbers) };
    Verdict::new(&numbers, |number, place| Cause::of_sheet(number, place, text, record))
}

/// Formats a sheet: where it is accepted, the formatted text stands at the output's start, and it
/// is [`Measures::length`](crate::Measures::length) bytes long. Nothing else of the output changes.
#[must_use]
pub fn get(text: &[u8], record: &[u8], tab_size: u32, output: &mut [u8]) -> Verdict {
    let mut numbers = [UNWRITTEN; NUMBERS];
    // SAFETY: each pointer comes from a slice of the length passed with it.
    unsafe {
        diverplume_get(
            text.as_ptr(),
            text.len(),
            record.as_ptr(),
            record.len(),
            tab_size,
            output.as_mut_ptr(),
            output.len(),
            &mut numbers,
        );
    }
    Verdict::new(&numbers, |number, place| {
        Cause::of_output(number, tab_size, output.len())
            .unwrap_or_else(|| Cause::of_sheet(number, place, text, record))
    })
}

/// The formatted text of a sheet. The check measures it first, then an output of just its length
/// is written.
///
/// # Errors
///
/// The verdict of a sheet that isn't accepted at this tab size. One whose text finds no memory is
/// declined as if the output were empty.
pub fn format(text: &[u8], record: &[u8], tab_size: u32) -> Result<Vec<u8>, Box<Verdict>> {
    let verdict = check(text, record);
    if !verdict.is_accepted() {
        return Err(Box::new(verdict));
    }
    let mut output = Vec::new();
    if let Some(length) = verdict.measures.output_length(tab_size) {
        if output.try_reserve_exact(length).is_ok() {
            output.resize(length, 0);
        }
    }
    let verdict = get(text, record, tab_size, &mut output);
    if verdict.is_accepted() {
        Ok(output)
    } else {
        Err(Box::new(verdict))
    }
}

/// The comment above a token, and the keyword that the search passed on its way up, by their token
/// numbers.
#[must_use]
pub fn comment_above(text: &[u8], record: &[u8], token: u64) -> CommentAbove {
    let mut answer = [UNWRITTEN; 4];
    // SAFETY: each pointer comes from a slice of the length passed with it.
    unsafe {
        diverplume_comment_above(
            text.as_ptr(),
            text.len(),
            record.as_ptr(),
            record.len(),
            token,
            &mut answer,
        );
    }
    CommentAbove::new(answer, |number, place| {
        Cause::of_lookup(number, place, text, record, token, 0)
    })
}

/// The doc comment above a token. Where there is one, its text stands at the output's start, and
/// the length is what was found; an output as long as the sheet's text is always long enough.
#[must_use]
pub fn doc_comment_above(text: &[u8], record: &[u8], token: u64, output: &mut [u8]) -> Lookup {
    let mut answer = [UNWRITTEN; 3];
    // SAFETY: each pointer comes from a slice of the length passed with it.
    unsafe {
        diverplume_doc_comment_above(
            text.as_ptr(),
            text.len(),
            record.as_ptr(),
            record.len(),
            token,
            output.as_mut_ptr(),
            output.len(),
            &mut answer,
        );
    }
    Lookup::new(answer, |number, place| {
        Cause::of_lookup(number, place, text, record, token, output.len())
    })
}
