//! Makes a copy of 000 that records which `?` fail, and its stop at an import.

use std::fmt::Write as _;
use std::path::Path;
use std::{env, fs};

/// The one stop of 000 that is no `?`.
const IMPORT: &str = "ast::DecOne::EsImportDec(_) => return None";
/// What stands there in the copy, before the number of the site.
const IMPORTED: &str = "ast::DecOne::EsImportDec(dec) => return crate::imported(dec.syntax(), ";

fn main() {
    let source = Path::new(&variable("CARGO_MANIFEST_DIR")).join("../sml-naive-fmt/src/lib.rs");
    println!("cargo::rerun-if-changed={}", source.display());
    let text = fs::read_to_string(&source).expect("000 can be read");
    let (copy, table) = instrumented(&text);
    let out = variable("OUT_DIR");
    let copy_path = Path::new(&out).join("with_sites.rs");
    fs::write(&copy_path, copy).expect("the copy can be written");
    // A module file of its own, because 000 begins with inner attributes.
    let allow = "#[expect(dead_code, reason = \"only the failures of `get` are read\")]";
    let module = format!("{allow}\n#[path = {copy_path:?}]\nmod with_sites;\n\n{table}");
    fs::write(Path::new(&out).join("module.rs"), module).expect("the module can be written");
}

/// The copy, in which `x?` is `x.site(n)?` and the import's `None` a call, and the table of the sites n.
fn instrumented(text: &str) -> (String, String) {
    assert_eq!(text.matches(IMPORT).count(), 1, "000 has {IMPORT:?} other than once");
    let mut copy = String::from("use crate::Site as _;\n");
    let mut table = String::from("/// The sites in the order of 000's text.\n");
    table.push_str("pub const SITES: &[Place] = &[\n");
    let mut count = 0;
    // 000's inner attributes have to come first.
    let (head, body) = text.split_at(text.find("use fast_hash").expect("000's first import"));
    copy.insert_str(0, head);
    let first_line = head.lines().count();
    for (number, line) in body.lines().enumerate() {
        let (code, comment) = line.split_at(line.find("//").unwrap_or(line.len()));
        assert!(!code.split('"').skip(1).step_by(2).any(|s| s.contains('?')), "? in a string");
        let mut behind = 0;
        let stop = code.find(IMPORT).map(|at| at + IMPORT.len());
        let failing = code.match_indices('?').map(|(at, _)| at).chain(stop);
        for at in failing {
            let before = &code[..at];
            let line = first_line + number + 1;
            writeln!(table, "    Place {{ line: {line}, before: {before:?} }},").expect("a String");
            let part = &code[behind..at];
            let written = match part.strip_suffix(IMPORT) {
                Some(part) => write!(copy, "{part}{IMPORTED}{count})"),
                None => write!(copy, "{part}.site({count})"),
            };
            written.expect("a String");
            behind = at;
            count += 1;
        }
        writeln!(copy, "{}{comment}", &code[behind..]).expect("a String");
    }
    table.push_str("];\n");
    (copy, table)
}

fn variable(name: &str) -> String {
    env::var(name).unwrap_or_else(|error| panic!("{name}: {error}"))
}
