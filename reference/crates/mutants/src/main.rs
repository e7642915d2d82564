//! Builds changed copies of 000, runs them and writes the report, or compares it with the one that
//! is there.

use mutants::{package, report, MUTATIONS};
use std::path::{Path, PathBuf};
use std::process::{Command, ExitCode};
use std::{env, fs};

const USAGE: &str = "usage:
  mutants               builds and runs all changed copies, writes MUTANTS.md
  mutants sample STEP   each STEP-th one alone; what is told of it has to be what MUTANTS.md says";

fn main() -> ExitCode {
    let arguments: Vec<_> = env::args().skip(1).collect();
    let said = match arguments.iter().map(String::as_str).collect::<Vec<_>>()[..] {
        [] => all(),
        ["sample", step] => match step.parse() {
            Ok(step @ 1..) => sample(step),
            _ => Err(format!("the step {step:?} is no number from 1 on\n{USAGE}")),
        },
        [argument, ..] => Err(format!("unknown argument {argument:?}\n{USAGE}")),
    };
    match said {
        Ok(report) => {
            println!("{}", report.trim_end());
            if report.contains("not told apart") || report.contains("MUTANTS.md has") {
                return ExitCode::FAILURE;
            }
            ExitCode::SUCCESS
        }
        Err(message) => {
            eprintln!("mutants: {message}");
            ExitCode::from(2)
        }
    }
}

fn workspace() -> PathBuf {
    Path::new(env!("CARGO_MANIFEST_DIR")).join("../..")
}

/// The report on all copies, which is written too.
fn all() -> Result<String, String> {
    let report = run("mutants", &(0..MUTATIONS.len()).collect::<Vec<_>>())?;
    let path = workspace().join("MUTANTS.md");
    fs::write(&path, &report).map_err(|error| format!("{}: {error}", path.display()))?;
    Ok(report)
}

/// How many of the copies were run, or the rows that `MUTANTS.md` has otherwise.
fn sample(step: usize) -> Result<String, String> {
    let path = workspace().join("MUTANTS.md");
    let stored = fs::read_to_string(&path).map_err(|e| format!("{}: {e}", path.display()))?;
    let numbers: Vec<_> = (0..MUTATIONS.len()).step_by(step).collect();
    let told = run("mutants-sample", &numbers)?;
    let rows: Vec<_> = report::rows(&stored).collect();
    let pairs = numbers.iter().map(|&number| rows.get(number).copied().unwrap_or("nothing"));
    let others: Vec<_> = pairs.zip(report::rows(&told)).filter(|(old, new)| old != new).collect();
    if let Some((old, new)) = others.first() {
        return Ok(format!("told of a copy:\n{new}\nMUTANTS.md has:\n{old}"));
    }
    let count = numbers.len();
    Ok(format!("{count} of {} changed copies told apart from 000 as before", rows.len()))
}

/// Builds the copies of these changes in a folder of `target`, and gives the report on them.
fn run(folder: &str, numbers: &[usize]) -> Result<String, String> {
    let folder = workspace().join("target").join(folder);
    package::write(&folder, numbers)?;
    let cargo = env::var_os("CARGO").unwrap_or_else(|| "cargo".into());
    let output = Command::new(cargo)
        .args(["run", "--release", "--offline", "-j1", "--quiet", "--manifest-path"])
        .arg(folder.join("Cargo.toml"))
        .env("CARGO_TARGET_DIR", folder.join("target"))
        .output()
        .map_err(|error| format!("cargo: {error}"))?;
    if !output.status.success() {
        return Err(format!("the copies: {}", String::from_utf8_lossy(&output.stderr)));
    }
    String::from_utf8(output.stdout).map_err(|error| error.to_string())
}
