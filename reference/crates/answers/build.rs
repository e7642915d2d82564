//! Makes copies of 000 and 001 that record what the Rust does not report.

use std::path::Path;
use std::{env, fs};

/// A copy with one line added.
struct Recording {
    /// The file that is copied.
    source: &'static str,
    /// The name of the module.
    module: &'static str,
    /// The line behind which it is added; the file has it once.
    head: &'static str,
    /// The line.
    line: &'static str,
    /// Why the copy has code that is not called.
    reason: &'static str,
}

const RECORDINGS: [Recording; 2] = [
    // The depths that `indented` forms. At tab size 1 the sum is the depth.
    Recording {
        source: "../sml-naive-fmt/src/lib.rs",
        module: "with_depth",
        head: "  fn indented(self) -> Self {\n",
        line: "    crate::depth::formed(self.indent + self.tab_size);\n",
        reason: "only the depths of `get` are read",
    },
    // The keyword that `comment_above` passes.
    Recording {
        source: "../sml-comment/src/lib.rs",
        module: "with_keyword",
        head: "        saw_one = true;\n",
        line: "        crate::keyword::passed(tok.number());\n",
        reason: "only the keyword of `comment_above` is read",
    },
];

fn main() {
    for recording in &RECORDINGS {
        recording.make();
    }
}

impl Recording {
    fn make(&self) {
        let Self { source, module, head, line, reason } = self;
        let source = Path::new(&variable("CARGO_MANIFEST_DIR")).join(source);
        println!("cargo::rerun-if-changed={}", source.display());
        let text = fs::read_to_string(&source).expect("the source can be read");
        assert_eq!(text.matches(head).count(), 1, "{source:?} has {head:?} other than once");
        let copy = text.replace(head, &format!("{head}{line}"));
        assert_eq!(copy.lines().count(), text.lines().count() + 1, "other than one line was added");
        let out = variable("OUT_DIR");
        let copy_path = Path::new(&out).join(format!("{module}.rs"));
        fs::write(&copy_path, copy).expect("the copy can be written");
        // A module file of its own, because the source begins with inner attributes or comments.
        let allow = format!("#[expect(dead_code, reason = \"{reason}\")]");
        let declared = format!("{allow}\n#[path = {copy_path:?}]\nmod {module};\n");
        let declared_path = Path::new(&out).join(format!("{module}_module.rs"));
        fs::write(declared_path, declared).expect("the module can be written");
    }
}

fn variable(name: &str) -> String {
    env::var(name).unwrap_or_else(|error| panic!("{name}: {error}"))
}
