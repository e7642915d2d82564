//! The arguments of the command.

use std::path::PathBuf;

/// What `--help` prints.
pub const HELP: &str = "\
diverplume - formats files of Standard ML

usage: diverplume [OPTION].. [FILE|FOLDER]..

Formats each FILE, and each file .sml, .sig and .fun in a FOLDER and below it; hidden ones and links
in a FOLDER are passed over. Without one, or for -, it formats standard input. The formatted text
goes to standard output.

  -w, --write      writes each file back if it changes; nothing is touched on a refusal
      --check      prints the names of the files that would change, exit 1 if there are some
  -d, --diff       prints how the files would change
      --tab N      the spaces of an indent, 2 if not given
      --why L:C    prints the comment above the declaration at line L, column C, and the keyword
                   that the search for it passed; for a comment there, the same of the
                   declarations that have it
  -q, --quiet      no warnings and no progress
      --help       this text
      --version    the version

exit: 0 all is well
      1 a file is refused, or with --check would change
      2 an argument is wrong, or a file can't be read or written

What is refused is told as FILE:LINE:COLUMN: what is expected, or what to do. A file is refused
  - where it is no Standard ML: The Definition of Standard ML (Revised), and of Successor ML
    or-patterns, vectors, do, rows without a value, op andalso, op orelse, ... and _ left open;
  - where formatting would lose a token or a comment: comments stand above declarations;
  - past a limit: 32768 bytes, 4096 tokens, 200 forms inside one another.
Before anything is written, the formatted text is compared with the file: its tokens have to be
the file's, and every comment has to be there. A comment that moves to another declaration, or is
written above several, is told as a warning with both places.

examples:
  diverplume rules.sml               shows the formatted file
  diverplume -w src                  formats all files of the folder src
  diverplume --check src             for a gate
  diverplume -d --tab 4 rules.sml    shows what would change with indents of four spaces
  diverplume --why 12:3 rules.sml    says why a comment belongs to the rule there
";

/// What the command is asked for.
#[derive(Debug, PartialEq, Eq)]
pub enum Request {
    Help,
    Version,
    Run(Options),
}

/// What is to be done with the files.
#[derive(Debug, PartialEq, Eq)]
pub struct Options {
    pub mode: Mode,
    pub is_check: bool,
    pub is_quiet: bool,
    pub tab_size: u32,
    /// Empty for standard input.
    pub paths: Vec<PathBuf>,
}

/// Where the formatted text goes.
#[derive(Debug, Clone, Copy, PartialEq, Eq)]
pub enum Mode {
    Print,
    Write,
    Diff,
    /// Nowhere: `--check` alone.
    Drop,
    /// The comment above the declaration at a line and a column.
    Why(usize, usize),
}

/// Reads the arguments.
///
/// # Errors
///
/// What is wrong with them.
pub fn parse(arguments: impl Iterator<Item = String>) -> Result<Request, String> {
    let mut options = Options {
        mode: Mode::Print,
        is_check: false,
        is_quiet: false,
        tab_size: 2,
        paths: Vec::new(),
    };
    let mut arguments = arguments;
    while let Some(argument) = arguments.next() {
        let (name, given) = match argument.split_once('=') {
            Some((name, value)) if name.starts_with("--") => (name, Some(value.to_owned())),
            _ => (argument.as_str(), None),
        };
        let mut value = || {
            let next = given.clone().or_else(|| arguments.next());
            next.ok_or_else(|| format!("{name} needs a value"))
        };
        match name {
            "--help" | "-h" => return Ok(Request::Help),
            "--version" | "-V" => return Ok(Request::Version),
            "-w" | "--write" => set_mode(&mut options, Mode::Write)?,
            "-d" | "--diff" => set_mode(&mut options, Mode::Diff)?,
            "--why" => {
                let place = value()?;
                set_mode(&mut options, position(&place)?)?;
            }
            "--tab" => options.tab_size = tab_size(&value()?)?,
            "--check" => options.is_check = true,
            "-q" | "--quiet" => options.is_quiet = true,
            "--" => options.paths.extend(arguments.by_ref().map(PathBuf::from)),
            "-" => options.paths.push(PathBuf::from("-")),
            _ if name.starts_with('-') => return Err(format!("there is no option {name}")),
            _ => options.paths.push(PathBuf::from(&argument)),
        }
    }
    whole(options).map(Request::Run)
}

fn set_mode(options: &mut Options, mode: Mode) -> Result<(), String> {
    if options.mode != Mode::Print && options.mode != mode {
        return Err("-w, -d and --why exclude one another".to_owned());
    }
    options.mode = mode;
    Ok(())
}

fn tab_size(value: &str) -> Result<u32, String> {
    value.parse().map_err(|_| format!("the tab size {value:?} is no number below 2^32"))
}

fn position(value: &str) -> Result<Mode, String> {
    let number = |part: &str| part.parse().ok().filter(|&number: &usize| number > 0);
    let place = value
        .split_once(':')
        .and_then(|(line, column)| Some(Mode::Why(number(line)?, number(column)?)));
    place.ok_or_else(|| format!("{value:?} is no place LINE:COLUMN, both from 1"))
}

/// The options, if they go together.
fn whole(mut options: Options) -> Result<Options, String> {
    if options.paths.is_empty() {
        options.paths.push(PathBuf::from("-"));
    }
    let has_input = options.paths.iter().any(|path| path.as_os_str() == "-");
    if has_input && options.paths.len() > 1 {
        return Err("standard input goes with no other file".to_owned());
    }
    match options.mode {
        Mode::Write if has_input => Err("-w needs a file to write back".to_owned()),
        Mode::Write | Mode::Why(..) if options.is_check => {
            Err("--check goes with -d only".to_owned())
        }
        Mode::Print if options.is_check => Ok(Options { mode: Mode::Drop, ..options }),
        _ => Ok(options),
    }
}

#[cfg(test)]
mod tests {
    use super::*;

    fn parsed(arguments: &[&str]) -> Result<Request, String> {
        parse(arguments.iter().map(|argument| (*argument).to_owned()))
    }

    #[test]
    fn arguments() {
        let options = |mode, is_check, tab_size, path: &str| {
            let paths = vec![PathBuf::from(path)];
            Ok(Request::Run(Options { mode, is_check, is_quiet: false, tab_size, paths }))
        };
        assert_eq!(parsed(&[]), options(Mode::Print, false, 2, "-"));
        assert_eq!(parsed(&["-w", "--tab=4", "a"]), options(Mode::Write, false, 4, "a"));
        assert_eq!(parsed(&["--check", "a"]), options(Mode::Drop, true, 2, "a"));
        assert_eq!(parsed(&["-d", "--check", "--", "-w"]), options(Mode::Diff, true, 2, "-w"));
        assert_eq!(parsed(&["--why", "3:4", "a"]), options(Mode::Why(3, 4), false, 2, "a"));
        assert_eq!(parsed(&["a", "--help", "-w"]), Ok(Request::Help));
    }

    #[test]
    fn wrong_arguments() {
        let wrong = [
            (&["-x"][..], "there is no option -x"),
            (&["--tab"], "--tab needs a value"),
            (&["--tab", "-1"], "the tab size \"-1\" is no number below 2^32"),
            (&["--why", "0:1"], "\"0:1\" is no place LINE:COLUMN, both from 1"),
            (&["-w"], "-w needs a file to write back"),
            (&["-w", "-d", "a"], "-w, -d and --why exclude one another"),
            (&["-w", "--check", "a"], "--check goes with -d only"),
            (&["-", "a"], "standard input goes with no other file"),
        ];
        for (arguments, problem) in wrong {
            assert_eq!(parsed(arguments), Err(problem.to_owned()));
        }
    }
}
