//! The tool `stop`: says what formatting stops at. It reads a sheet's file from standard input and takes
//! the place, an offset of its record, that a verdict of number 13 or 14 gave.

use diverplume_record::{Input, Stop};
use std::io::{self, Read as _};
use std::process::ExitCode;

fn main() -> ExitCode {
    let arguments: Vec<_> = std::env::args().skip(1).collect();
    match run(&arguments) {
        Ok(said) => {
            println!("{said}");
            ExitCode::SUCCESS
        }
        Err(problem) => {
            eprintln!("stop: {problem}");
            ExitCode::from(2)
        }
    }
}

fn run(arguments: &[String]) -> Result<String, String> {
    let [place] = arguments else {
        return Err("usage: stop PLACE < SHEET".to_owned());
    };
    let place = place.parse().map_err(|error| format!("the place {place:?}: {error}"))?;
    let mut input = Vec::new();
    io::stdin().read_to_end(&mut input).map_err(|error| format!("standard input: {error}"))?;
    let sheet = Input::parse(&input).ok_or("standard input is no sheet's file")?;
    let stop = Stop::at(sheet.text, sheet.record, place);
    stop.map(|stop| stop.to_string())
        .ok_or_else(|| format!("formatting does not stop at offset {place} of the record"))
}
