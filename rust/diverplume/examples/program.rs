//! The program `format_sheet` over the library: reads tab size (u32, little-endian), text length
//! (u16), text and record from standard input, prints number, place, deepest, letters and units,
//! then the text if it is accepted.

use diverplume::record::Input;
use diverplume::{get, Verdict};
use std::io::{self, Read as _, Write as _};

/// The length of the output.
const OUTPUT: usize = 65_536;

fn main() -> io::Result<()> {
    let mut input = Vec::new();
    io::stdin().read_to_end(&mut input)?;
    io::stdout().write_all(&printed(&input))
}

fn printed(input: &[u8]) -> Vec<u8> {
    let Some(Input { tab_size, text, record }) = Input::parse(input) else {
        return b"1 0 0 0 0\n".to_vec();
    };
    let mut output = vec![0; OUTPUT];
    let verdict = get(text, record, tab_size, &mut output);
    let Verdict { number, place, measures, .. } = &verdict;
    let (deepest, letters, units) = (measures.deepest, measures.letters, measures.units);
    let line = format!("{} {place} {deepest} {letters} {units}\n", *number as u8);
    if verdict.is_accepted() {
        output.truncate(usize::try_from(measures.length(tab_size)).unwrap_or(OUTPUT));
    } else {
        output.clear();
    }
    [line.into_bytes(), output].concat()
}
