//! The reference on the command line.

use answers::{command_line, program_output};
use decode::program::Input;
use sheet::lettered;
use std::io::{self, Read as _};
use std::process::ExitCode;

const USAGE: &str = "usage:
  reference names              the names of the lettered sheets, one a line
  reference input NAME TAB     the program's input for a lettered sheet at a tab size
  reference program            what the program prints for the input on standard input";

fn main() -> ExitCode {
    command_line::print("reference", run)
}

/// The bytes to print, or what is wrong with the arguments.
fn run(arguments: &[&str]) -> Result<Vec<u8>, String> {
    match arguments {
        ["names"] => {
            let names = lettered::all().into_iter().map(|(name, _)| format!("{name}\n"));
            Ok(names.collect::<String>().into_bytes())
        }
        ["input", name, tab_size] => input(name, tab_size),
        ["program"] => {
            let mut input = Vec::new();
            let read = io::stdin().read_to_end(&mut input);
            read.map_err(|error| format!("standard input: {error}"))?;
            Ok(program_output(&input))
        }
        _ => Err(format!("unknown arguments {arguments:?}\n{USAGE}")),
    }
}

fn input(name: &str, tab_size: &str) -> Result<Vec<u8>, String> {
    let tab_size = tab_size
        .parse()
        .map_err(|error| format!("the tab size {tab_size:?} is no number below 2^32: {error}"))?;
    let sheet = lettered::all().into_iter().find(|(other, _)| *other == name);
    let (_, sheet) = sheet.ok_or_else(|| format!("no lettered sheet is named {name:?}"))?;
    let input = Input { tab_size, text: &sheet.text, record: &sheet.record };
    input.to_bytes().ok_or_else(|| format!("the text of {name:?} is over 65,535 bytes"))
}
