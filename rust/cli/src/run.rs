//! Formats the files and tells what became of each.

use crate::files::{self, Found};
use crate::format::format;
use crate::options::{Mode, Options};
use crate::parallel::{self, Progress};
use crate::why::{why, Why};
use crate::{diff, write};
use std::fs;
use std::io::{self, Read as _, Write as _};

/// The exit status of the command, the worst of those of its files.
#[derive(Debug, Clone, Copy, PartialEq, Eq, PartialOrd, Ord)]
#[repr(u8)]
pub enum Exit {
    /// All is well.
    Fine,
    /// A file is refused or, with `--check`, would change.
    Refused,
    /// Something else is wrong.
    Trouble,
}

/// What came of a file.
struct Outcome {
    exit: Exit,
    /// For standard output.
    output: Vec<u8>,
    /// For standard error, a line each.
    messages: Vec<String>,
    /// Whether the file was not formatted before.
    is_changed: bool,
}

impl Outcome {
    fn failed(exit: Exit, messages: Vec<String>) -> Self {
        Self { exit, output: Vec::new(), messages, is_changed: false }
    }
}

/// Does what the options say.
pub fn run(options: &Options) -> Exit {
    let mut files = files::find(&options.paths);
    if options.mode == Mode::Write {
        files::keep_once(&mut files);
    }
    if files.is_empty() {
        eprintln!("diverplume: no file .sml, .sig or .fun stands there");
    }
    let mut progress = Progress::new(files.len(), options.is_quiet);
    let mut exit = Exit::Fine;
    let mut counts = Counts::default();
    parallel::for_each(
        &files,
        |found| outcome(found, options),
        |_, outcome| {
            progress.step();
            if !outcome.messages.is_empty() || !outcome.output.is_empty() {
                progress.clear();
            }
            for message in &outcome.messages {
                eprintln!("{message}");
            }
            counts.add(&outcome);
            exit = exit.max(outcome.exit).max(print(&outcome.output));
        },
    );
    progress.clear();
    if options.mode == Mode::Write && files.len() > 1 && !options.is_quiet {
        eprintln!("diverplume: {counts}");
    }
    exit
}

/// Writes to standard output.
pub fn print(output: &[u8]) -> Exit {
    let mut standard = io::stdout().lock();
    match standard.write_all(output).and_then(|()| standard.flush()) {
        Ok(()) => Exit::Fine,
        // The reader has read enough.
        Err(error) if error.kind() == io::ErrorKind::BrokenPipe => Exit::Fine,
        Err(error) => {
            eprintln!("diverplume: standard output: {error}");
            Exit::Trouble
        }
    }
}

/// How many files came to what.
#[derive(Default)]
struct Counts {
    written: usize,
    unchanged: usize,
    failed: usize,
}

impl Counts {
    fn add(&mut self, outcome: &Outcome) {
        match outcome.exit {
            Exit::Fine if outcome.is_changed => self.written += 1,
            Exit::Fine => self.unchanged += 1,
            _ => self.failed += 1,
        }
    }
}

impl std::fmt::Display for Counts {
    fn fmt(&self, f: &mut std::fmt::Formatter<'_>) -> std::fmt::Result {
        let Self { written, unchanged, failed } = self;
        write!(f, "{written} written, {unchanged} formatted before, {failed} left alone")
    }
}

fn is_standard_input(found: &Found) -> bool {
    found.path.as_os_str() == "-"
}

/// The name of a file in messages.
fn name(found: &Found) -> String {
    if is_standard_input(found) {
        return "<standard input>".to_owned();
    }
    found.path.display().to_string()
}

fn read(found: &Found) -> io::Result<Vec<u8>> {
    if !is_standard_input(found) {
        return fs::read(&found.path);
    }
    let mut text = Vec::new();
    io::stdin().read_to_end(&mut text)?;
    Ok(text)
}

/// Formats a file, and writes it where that is asked for.
fn outcome(found: &Found, options: &Options) -> Outcome {
    let name = name(found);
    let trouble = |error: &dyn std::fmt::Display| {
        Outcome::failed(Exit::Trouble, vec![format!("{name}: {error}")])
    };
    if let Some(error) = &found.error {
        return trouble(error);
    }
    let before = match read(found) {
        Ok(text) => text,
        Err(error) => return trouble(&error),
    };
    if let Mode::Why(line, column) = options.mode {
        return explained(&name, &before, line, column);
    }
    let formatted = match format(&before, options.tab_size) {
        Ok(formatted) => formatted,
        Err(messages) => {
            let messages = messages.iter().map(|message| message.of_file(&name)).collect();
            return Outcome::failed(Exit::Refused, messages);
        }
    };
    let is_changed = formatted.text != before;
    if options.mode == Mode::Write && is_changed {
        if let Err(problem) = write::write(&found.path, &before, &formatted.text) {
            return trouble(&problem);
        }
    }
    let warnings = formatted.warnings.iter().filter(|_| !options.is_quiet);
    Outcome {
        exit: if is_changed && options.is_check { Exit::Refused } else { Exit::Fine },
        output: shown(&name, &before, formatted.text.clone(), options),
        messages: warnings.map(|message| message.of_file(&name)).collect(),
        is_changed,
    }
}

/// What standard output gets of a formatted file.
fn shown(name: &str, before: &[u8], after: Vec<u8>, options: &Options) -> Vec<u8> {
    match options.mode {
        Mode::Print => after,
        Mode::Diff => diff::unified(name, before, &after),
        Mode::Drop if before != after => format!("{name}\n").into_bytes(),
        Mode::Drop | Mode::Write | Mode::Why(..) => Vec::new(),
    }
}

fn explained(name: &str, text: &[u8], line: usize, column: usize) -> Outcome {
    match why(text, line, column) {
        Ok(Why { messages, comment }) => {
            let lines = messages.iter().map(|message| message.of_file(name)).chain(comment);
            let output = lines.map(|line| line + "\n").collect::<String>().into_bytes();
            Outcome { exit: Exit::Fine, output, messages: Vec::new(), is_changed: false }
        }
        Err(message) => Outcome::failed(Exit::Refused, vec![message.of_file(name)]),
    }
}
