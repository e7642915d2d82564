//! The package of changed copies.

use crate::table::{Mutation, MUTATIONS};
use std::fmt::Write as _;
use std::path::{Path, PathBuf};
use std::{fs, io};

/// The head of `Cfg::indented` in 000.
const HEAD: &str = "  fn indented(self) -> Self {\n";
/// The line put behind it: it records the indent that is formed.
const LINE: &str = "    mutants::judge::formed(self.indent + self.tab_size);\n";

/// The program of the package. `MODULES`, `NUMBERS` and `WALKS` are replaced.
const PROGRAM: &str = r#"//! Changed copies of 000.
#![allow(warnings)]

use mutants::judge::{Outcome, Seen, TAB_SIZE};

macro_rules! walk {
    ($copy:ident) => {
        |root| {
            let comments = |ranges: fast_hash::FxHashSet<text_size_util::TextRange>| {
                Outcome::comments(ranges.iter().map(|range| (range.start(), range.end())))
            };
            let get = || match $copy::get(root, TAB_SIZE) {
                Ok(text) => Outcome::Accepted(text),
                Err($copy::Error::Syntax) => Outcome::Syntax,
                Err($copy::Error::Comments(ranges)) => comments(ranges),
            };
            let check = || match $copy::check(root) {
                Ok(()) => Outcome::Accepted(String::new()),
                Err($copy::Error::Syntax) => Outcome::Syntax,
                Err($copy::Error::Comments(ranges)) => comments(ranges),
            };
            Seen::of(get, check)
        }
    };
}

MODULES
fn main() {
    mutants::judge::main(&[NUMBERS], &[WALKS]);
}
"#;

/// The folder of the crates of this workspace.
fn crates() -> PathBuf {
    Path::new(env!("CARGO_MANIFEST_DIR")).join("..")
}

/// The text of 000.
///
/// # Errors
///
/// If the file can't be read.
pub fn source() -> io::Result<String> {
    fs::read_to_string(crates().join("sml-naive-fmt/src/lib.rs"))
}

/// Writes the package into a folder: the copies of the changes with these numbers in
/// [`MUTATIONS`], and one without a change.
///
/// # Errors
///
/// If a change doesn't fit 000 or a file can't be written.
pub fn write(folder: &Path, numbers: &[usize]) -> Result<(), String> {
    let source = source().map_err(|error| format!("000: {error}"))?;
    let told = |error: io::Error| format!("{}: {error}", folder.display());
    fs::create_dir_all(folder.join("src")).map_err(told)?;
    let unchanged = Mutation { change: "none", from: HEAD, to: HEAD };
    let (mut modules, mut walks) = (String::new(), String::new());
    let changed = numbers.iter().map(|&number| &MUTATIONS[number]);
    for (number, mutation) in std::iter::once(&unchanged).chain(changed).enumerate() {
        let copy = recording(&mutation.apply(&source)?)?;
        fs::write(folder.join(format!("src/copy_{number}.rs")), copy).map_err(told)?;
        writeln!(modules, "mod copy_{number};").expect("a String");
        write!(walks, "walk!(copy_{number}), ").expect("a String");
    }
    let numbers: String = numbers.iter().map(|number| format!("{number}, ")).collect();
    let program = PROGRAM.replace("MODULES", &modules).replace("NUMBERS", &numbers);
    let program = program.replace("WALKS", &walks);
    fs::write(folder.join("src/main.rs"), program).map_err(told)?;
    fs::write(folder.join("Cargo.toml"), manifest()).map_err(told)
}

/// The copy with the line that records the depths.
fn recording(copy: &str) -> Result<String, String> {
    match copy.matches(HEAD).count() {
        1 => Ok(copy.replacen(HEAD, &format!("{HEAD}{LINE}"), 1)),
        count => Err(format!("a copy has {HEAD:?} {count} times")),
    }
}

/// The package's manifest. Overflow panics as in the reference; the copies are not optimized,
/// because there are many of them and each is run on few sheets.
fn manifest() -> String {
    let mut manifest = String::from(
        "[package]\nname = \"copies\"\nversion = \"0.1.0\"\nedition = \"2021\"\npublish = false\n\n\
         [workspace]\n\n[profile.release]\nopt-level = 0\noverflow-checks = true\n\n\
         [profile.release.package.\"*\"]\nopt-level = 3\n\n[dependencies]\n",
    );
    for name in ["fast-hash", "mutants", "sml-comment", "sml-syntax", "text-size-util"] {
        writeln!(manifest, "{name} = {{ path = {:?} }}", crates().join(name)).expect("a String");
    }
    manifest
}
