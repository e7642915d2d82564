//! Writes the sheet of a rule file: tab size (u32, little-endian), text length (u16), text, record.

use diverplume_record::Input;
use diverplume_sheet::sheet;
use std::io::{self, Write as _};
use std::process::ExitCode;
use std::{env, fs};

const USAGE: &str = "usage:
  sheet FILE TAB > SHEET   writes the sheet of a rule file in Standard ML, for a tab size";

fn main() -> ExitCode {
    let arguments: Vec<_> = env::args().skip(1).collect();
    let arguments: Vec<_> = arguments.iter().map(String::as_str).collect();
    let done = run(&arguments).and_then(|bytes| {
        io::stdout().write_all(&bytes).map_err(|error| format!("standard output: {error}"))
    });
    match done {
        Ok(()) => ExitCode::SUCCESS,
        Err(message) => {
            eprintln!("sheet: {message}");
            ExitCode::from(2)
        }
    }
}

/// The sheet's bytes, or what is wrong.
fn run(arguments: &[&str]) -> Result<Vec<u8>, String> {
    let [file, tab_size] = arguments else {
        return Err(format!("unknown arguments {arguments:?}\n{USAGE}"));
    };
    let tab_size = tab_size
        .parse()
        .map_err(|error| format!("the tab size {tab_size:?} is no number below 2^32: {error}"))?;
    let text = fs::read(file).map_err(|error| format!("{file}: {error}"))?;
    let sheet = sheet(&text).map_err(|error| format!("{file}:{error}"))?;
    let input = Input { tab_size, text: &sheet.text, record: &sheet.record };
    input.to_bytes().ok_or_else(|| format!("{file}: the text is over 65,535 bytes"))
}
