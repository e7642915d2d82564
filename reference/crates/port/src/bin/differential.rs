//! The port compared with the unchanged Rust on generated sheets, and its scanner with the reference's on
//! generated texts.

use port::{run, scan};
use std::fmt::Display;
use std::process::ExitCode;
use std::time::Instant;

const USAGE: &str = "usage:
  differential COUNT SEED          compares port and Rust on the first COUNT cases of SEED
  differential accents COUNT SEED  the same, with accents in their texts
  differential scan COUNT SEED     compares the scanners on the first COUNT texts of SEED";

fn main() -> ExitCode {
    let arguments: Vec<_> = std::env::args().skip(1).collect();
    let arguments: Vec<_> = arguments.iter().map(String::as_str).collect();
    let start = Instant::now();
    let done = match arguments[..] {
        ["scan", ref numbers @ ..] => {
            numbers_of(numbers).map(|(count, seed)| report(seed, scan::run(seed, count)))
        }
        ["accents", ref numbers @ ..] => {
            numbers_of(numbers).map(|(count, seed)| report(seed, run::run_accented(seed, count)))
        }
        ref numbers => numbers_of(numbers).map(|(count, seed)| report(seed, run::run(seed, count))),
    };
    match done {
        Ok(Ok(said)) => {
            println!("{said}");
            println!("no difference, {:.1} s", start.elapsed().as_secs_f64());
            ExitCode::SUCCESS
        }
        Ok(Err(differing)) => {
            eprintln!("differential: {differing}");
            ExitCode::FAILURE
        }
        Err(message) => {
            eprintln!("differential: {message}\n{USAGE}");
            ExitCode::from(2)
        }
    }
}

/// What was compared, or what differs, in words.
fn report(seed: u64, compared: Result<impl Display, impl Display>) -> Result<String, String> {
    compared
        .map(|compared| format!("seed {seed}: {compared}"))
        .map_err(|differing| differing.to_string())
}

/// Count and seed, or what is wrong with the arguments.
fn numbers_of(arguments: &[&str]) -> Result<(u64, u64), String> {
    let [count, seed] = arguments else {
        return Err(format!("unknown arguments {arguments:?}"));
    };
    let number = |name: &str, text: &str| {
        text.parse()
            .map_err(|error| format!("the {name} {text:?} is no number below 2^64: {error}"))
    };
    Ok((number("count", count)?, number("seed", seed)?))
}
