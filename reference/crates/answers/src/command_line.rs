//! What the reference's programs share on the command line.

use std::io::{self, Write as _};
use std::process::ExitCode;

/// Runs a program on its arguments and prints its bytes; an error goes to standard error behind the
/// program's name, and the exit code is 2.
pub fn print(program: &str, run: impl Fn(&[&str]) -> Result<Vec<u8>, String>) -> ExitCode {
    let arguments: Vec<_> = std::env::args().skip(1).collect();
    let arguments: Vec<_> = arguments.iter().map(String::as_str).collect();
    let done = run(&arguments).and_then(|output| {
        io::stdout().write_all(&output).map_err(|error| format!("standard output: {error}"))
    });
    match done {
        Ok(()) => ExitCode::SUCCESS,
        Err(message) => {
            eprintln!("{program}: {message}");
            ExitCode::from(2)
        }
    }
}
