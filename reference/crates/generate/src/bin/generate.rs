//! Cases on the command line: what a run of them reaches, and a case's input for the program.

use answers::{command_line, Reference};
use decode::program::Input;
use generate::{Coverage, Generator};
use std::process::ExitCode;

const USAGE: &str = "usage:
  generate report COUNT SEED   what the first COUNT cases of SEED reach
  generate input SEED INDEX    the program's input for the case of that number";

fn main() -> ExitCode {
    command_line::print("generate", run)
}

/// The bytes to print, or what is wrong with the arguments.
fn run(arguments: &[&str]) -> Result<Vec<u8>, String> {
    match arguments {
        ["report", count, seed] => Ok(report(number("count", count)?, number("seed", seed)?)),
        ["input", seed, index] => input(number("seed", seed)?, number("index", index)?),
        _ => Err(format!("unknown arguments {arguments:?}\n{USAGE}")),
    }
}

fn report(count: u64, seed: u64) -> Vec<u8> {
    let mut coverage = Coverage::new();
    for case in Generator::new(seed).cases(count) {
        let reference = Reference::new(&case.sheet);
        coverage.add(&case, &reference, &case.calls(&reference));
    }
    coverage.to_string().into_bytes()
}

fn input(seed: u64, index: u64) -> Result<Vec<u8>, String> {
    let case = Generator::new(seed).case(index);
    let (text, record) = (&case.sheet.text[..], &case.sheet.record[..]);
    let input = Input { tab_size: case.tab_size, text, record };
    input.to_bytes().ok_or_else(|| format!("{case}: the text is over 65,535 bytes"))
}

fn number(name: &str, text: &str) -> Result<u64, String> {
    text.parse().map_err(|error| format!("the {name} {text:?} is no number below 2^64: {error}"))
}
