//! Writes the vectors.

use std::path::Path;
use std::process::ExitCode;
use std::{env, fs};
use vectors::{all, bytes, index, BINARY, INDEX};

const USAGE: &str = "usage:
  vectors write FOLDER   writes vectors.bin and index.tsv into a folder that is there";

fn main() -> ExitCode {
    let arguments: Vec<_> = env::args().skip(1).collect();
    let arguments: Vec<_> = arguments.iter().map(String::as_str).collect();
    match run(&arguments) {
        Ok(message) => {
            println!("{message}");
            ExitCode::SUCCESS
        }
        Err(message) => {
            eprintln!("vectors: {message}");
            ExitCode::from(2)
        }
    }
}

/// What was done, or what is wrong.
fn run(arguments: &[&str]) -> Result<String, String> {
    let ["write", folder] = arguments else {
        return Err(format!("unknown arguments {arguments:?}\n{USAGE}"));
    };
    let folder = Path::new(folder);
    if !folder.is_dir() {
        return Err(format!("{} is no folder", folder.display()));
    }
    let vectors = all();
    let binary = bytes(&vectors);
    let message = format!("{} vectors, {} bytes", vectors.len(), binary.len());
    write(&folder.join(BINARY), &binary)?;
    write(&folder.join(INDEX), index(&vectors).as_bytes())?;
    Ok(message)
}

fn write(path: &Path, bytes: &[u8]) -> Result<(), String> {
    fs::write(path, bytes).map_err(|error| format!("{}: {error}", path.display()))
}
