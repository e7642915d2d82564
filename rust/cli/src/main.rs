//! The command `diverplume`: formats files of Standard ML.

mod diff;
mod files;
mod format;
mod message;
mod options;
mod parallel;
mod run;
mod why;
mod write;

use std::env;
use std::process::ExitCode;

fn main() -> ExitCode {
    let code = match options::parse(env::args().skip(1)) {
        Ok(options::Request::Help) => run::print(options::HELP.as_bytes()),
        Ok(options::Request::Version) => {
            run::print(concat!("diverplume ", env!("CARGO_PKG_VERSION"), "\n").as_bytes())
        }
        Ok(options::Request::Run(options)) => run::run(&options),
        Err(problem) => {
            eprintln!("diverplume: {problem}; 'diverplume --help' lists what there is");
            run::Exit::Trouble
        }
    };
    ExitCode::from(code as u8)
}
