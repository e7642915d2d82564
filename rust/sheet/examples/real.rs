//! Runs the parser and formatting over all files of Standard ML in some folders, and says what
//! does not hold: a formatted text has to have the file's tokens and comments and to parse to the
//! same tree, and formatting it again has to change nothing.
//!
//!     cargo run --release --offline --example real -- FOLDER..
//!
//! One line for each file, `group: file: message`; the counts of the groups stand at the end. It exits
//! with 1 if there is a fault.

use diverplume::format;
use diverplume_sheet::{judge, File, Reason, Stray};
use std::collections::BTreeMap;
use std::path::{Path, PathBuf};
use std::process::ExitCode;
use std::{env, fs, io};

/// What became of a file.
#[derive(Debug, Clone, Copy, PartialEq, Eq, PartialOrd, Ord)]
enum Group {
    Formatted,
    /// Formatting it again writes a comment once more, as it did the first time.
    Repeating,
    CommentsLeft,
    Loss,
    Limit,
    NotParsed,
    Fault,
}

impl Group {
    fn name(self) -> &'static str {
        match self {
            Self::Formatted => "formatted, and again the same",
            Self::Repeating => "formatted, a comment repeated, and once more if formatted again",
            Self::CommentsLeft => "parsed, refused: comments would be lost",
            Self::Loss => "parsed, refused: a token would be lost",
            Self::Limit => "parsed, refused: past a limit",
            Self::NotParsed => "not parsed",
            Self::Fault => "FAULT",
        }
    }
}

const TAB_SIZE: u32 = 2;

fn main() -> ExitCode {
    let mut files = Vec::new();
    for folder in env::args().skip(1) {
        if let Err(error) = find(Path::new(&folder), &mut files) {
            eprintln!("real: {folder}: {error}");
            return ExitCode::from(2);
        }
    }
    files.sort();
    let mut counts = BTreeMap::new();
    for file in &files {
        let (group, message) = match fs::read(file) {
            Ok(text) => of_text(&text),
            Err(error) => (Group::Fault, error.to_string()),
        };
        println!("{}: {}:{message}", group.name(), file.display());
        *counts.entry(group).or_insert(0_usize) += 1;
    }
    println!();
    for (group, count) in &counts {
        println!("{count:6} {}", group.name());
    }
    println!("{:6} files", files.len());
    ExitCode::from(u8::from(counts.contains_key(&Group::Fault)))
}

/// Adds the files of Standard ML in a folder and those below it.
fn find(folder: &Path, files: &mut Vec<PathBuf>) -> io::Result<()> {
    for entry in fs::read_dir(folder)? {
        let entry = entry?;
        let (path, kind) = (entry.path(), entry.file_type()?);
        let extension = path.extension().and_then(|extension| extension.to_str());
        if kind.is_dir() {
            find(&path, files)?;
        } else if kind.is_file() && matches!(extension, Some("sml" | "sig" | "fun" | "ML")) {
            files.push(path);
        }
    }
    Ok(())
}

/// The group of a text, and what is said of it.
fn of_text(text: &[u8]) -> (Group, String) {
    let file = match File::parse(text) {
        Ok(file) => file,
        Err(error) if error.reason == Reason::Limit => return (Group::Limit, error.to_string()),
        Err(error) => return (Group::NotParsed, error.to_string()),
    };
    let sheet = match file.sheet() {
        Ok(sheet) => sheet,
        Err(error) if error.reason == Reason::Loss => return (Group::Loss, error.to_string()),
        Err(error) => return (Group::Limit, error.to_string()),
    };
    match format(&sheet.text, &sheet.record, TAB_SIZE) {
        Ok(formatted) => again(text, &file, &formatted),
        Err(verdict) => (Group::CommentsLeft, verdict.to_string()),
    }
}

/// The group of a file that was formatted.
fn again(text: &[u8], file: &File<'_>, formatted: &[u8]) -> (Group, String) {
    let twice = match formatted_again(text, file, formatted) {
        Ok(twice) => twice,
        Err(fault) => return (Group::Fault, fault),
    };
    if twice.is_none_or(|twice| twice == formatted) {
        return (Group::Formatted, String::new());
    }
    let strays = file.strays();
    let is_repeated = strays.iter().any(|stray| matches!(stray, Stray::Repeated { .. }));
    let group = if is_repeated { Group::Repeating } else { Group::Fault };
    (group, "formatting again changes the text".to_owned())
}

/// The formatted text formatted again; none where it is past a limit. An error is a fault.
fn formatted_again(
    text: &[u8],
    file: &File<'_>,
    formatted: &[u8],
) -> Result<Option<Vec<u8>>, String> {
    judge(text, formatted)
        .map_err(|error| format!("formatted: {error}"))?
        .map_err(|change| format!("{change:?}"))?;
    let second = File::parse(formatted).map_err(|error| format!("formatted: {error}"))?;
    file.same_tree(&second).map_err(|difference| format!("another tree: {difference:?}"))?;
    let sheet = match second.sheet() {
        Err(error) if error.reason == Reason::Limit => return Ok(None),
        sheet => sheet.map_err(|error| format!("formatted: {error}"))?,
    };
    let twice = format(&sheet.text, &sheet.record, TAB_SIZE);
    twice.map(Some).map_err(|verdict| format!("formatted: {verdict}"))
}
