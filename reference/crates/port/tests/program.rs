//! The program `format_sheet` on the lettered sheets of document 01, and on input that is cut short or too long.

use schema::{Input, Sheet};
use sheet::lettered;
use std::io::Write as _;
use std::path::PathBuf;
use std::process::{Command, Stdio};

/// What the program prints. Its input comes in pieces, as pipes give them.
fn printed(input: &[u8]) -> Vec<u8> {
    let path = PathBuf::from(env!("CARGO_MANIFEST_DIR")).join("../../../target/bin/format_sheet");
    let mut child =
        Command::new(&path).stdin(Stdio::piped()).stdout(Stdio::piped()).spawn().unwrap_or_else(
            |error| panic!("{}: {error}; `tools/build format_sheet` makes it", path.display()),
        );
    let mut stdin = child.stdin.take().expect("a pipe");
    for piece in input.chunks(4096) {
        // The program reads no more than it has room for.
        if stdin.write_all(piece).is_err() {
            break;
        }
    }
    drop(stdin);
    child.wait_with_output().expect("the program ends").stdout
}

fn input(sheet: &Sheet, tab_size: u32) -> Vec<u8> {
    let input = Input { tab_size, text: &sheet.text, record: &sheet.record };
    input.to_bytes().expect("a text whose length fits two bytes")
}

#[test]
fn lettered_sheets() {
    for (name, sheet) in lettered::all() {
        for tab_size in [0, 1, 2, 4, 8, 2_147_483_647, 2_147_483_648, u32::MAX] {
            let input = input(&sheet, tab_size);
            assert_eq!(printed(&input), answers::program_output(&input), "{name} at {tab_size}");
        }
    }
}

#[test]
fn sheet_a_prints_its_line_and_text() {
    let sheet = lettered::a();
    let input = input(&sheet, 2);
    assert_eq!(printed(&input), b"0 0 0 9 0\nval x = 1");
}

#[test]
fn sheet_l_prints_its_line_alone() {
    assert_eq!(printed(&input(&lettered::l_import(), 2)), b"14 21 0 0 0\n");
    assert_eq!(printed(&input(&lettered::l_import_with_comment(), 2)), b"14 29 0 0 0\n");
}

#[test]
fn cut_short_or_too_long() {
    let sheet = lettered::c();
    let input = input(&sheet, 2);
    for end in 0..=input.len() {
        assert_eq!(printed(&input[..end]), answers::program_output(&input[..end]), "{end} bytes");
    }
    let mut long = vec![0; 6 + 65_536];
    assert_ne!(printed(&long), b"1 0 0 0 0\n");
    long.push(0);
    assert_eq!(printed(&long), b"1 0 0 0 0\n", "a 65,537th byte of the record");
    long.resize(300_000, 0);
    assert_eq!(printed(&long), b"1 0 0 0 0\n");
}
