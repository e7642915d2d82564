"""Tests that limits and the head of a sheet's file are everywhere those of the definitions in specs/.

The proofs hold the code to the definitions; what users read and what stands beside the code is held here.
"""
import glob
import os
import re
import unittest

ROOT = os.path.join(os.path.dirname(os.path.abspath(__file__)), "..")


def read(path):
    with open(os.path.join(ROOT, path), encoding="utf-8") as file:
        return file.read()


def number(text):
    return int(text.replace("_", ""), 0)


def definition(path, name):
    """The number that a definition is."""
    return number(re.search(r"^%s = (\w+)$" % name, read("crates/%s.antt" % path), re.M).group(1))


TEXT = definition("reader/specs/Reading", "max_text")
RECORD = definition("reader/specs/Reading", "max_record")
TOKENS = definition("reader/specs/Tokens", "max_tokens")
FORMS = definition("reader/specs/Check", "max_forms")
WIDTH = definition("formatter/specs/Verdict", "max_width")
ROOM = definition("program/specs/Program", "room")
HEAD = definition("program/specs/Program", "head_length")
LINE = definition("program/specs/Promises/Printing", "max_line")


class Limits(unittest.TestCase):
    def constants(self, path, pattern, expected):
        found = {name: number(value) for name, value in re.findall(pattern, read(path))}
        self.assertEqual({name: found.get(name) for name in expected}, expected, path)

    def test_documents(self):
        """01: text 32,768 bytes, 4,096 tokens, record 65,536 bytes, 200 forms inside one another."""
        self.assertEqual((TEXT, TOKENS, RECORD, FORMS, WIDTH, ROOM), (32768, 4096, 65536, 200, 2 ** 32 - 1, 65536))

    def test_code(self):
        const = r"const (MAX_\w+): \w+ = (\w+);"
        self.constants("crates/reader/src/lib.rt", const, {"MAX_TEXT": TEXT, "MAX_RECORD": RECORD})
        self.constants("crates/reader/src/tokens.rt", const, {"MAX_TOKENS": TOKENS})
        self.constants("crates/reader/src/tree.rt", const, {"MAX_FORMS": FORMS})
        self.constants("crates/formatter/src/lib.rt", const, {"MAX_WIDTH": WIDTH})

    def test_header(self):
        limits = {"TEXT": TEXT, "RECORD": RECORD, "TOKENS": TOKENS, "FORMS": FORMS}
        self.constants("include/diverplume.h", r"#define DIVERPLUME_MAX_(\w+) (\d+)", limits)

    def test_schema(self):
        limits = {"TEXT": TEXT, "RECORD": RECORD, "TOKENS": TOKENS, "FORMS": FORMS}
        self.constants("rust/record/src/schema.rs", r"pub const (\w+): usize = ([\d_]+);", limits)

    def test_help_of_the_command(self):
        said = re.search(r"past a limit: (\d+) bytes, (\d+) tokens, (\d+) forms", read("rust/cli/src/options.rs"))
        self.assertEqual([number(one) for one in said.groups()], [TEXT, TOKENS, FORMS])

    def test_output_of_the_program(self):
        self.constants("reference/crates/decode/src/program.rs", r"pub const (\w+): usize = ([\d_]+);", {"OUTPUT": ROOM})
        self.constants("rust/diverplume/examples/program.rs", r"const (\w+): usize = ([\d_]+);", {"OUTPUT": ROOM})
        for path, name, size in (
            ("crates/program/src/lib.rt", "page", ROOM),
            ("crates/format_sheet/src/main.rt", "out", ROOM + LINE),
            # One byte more than the longest input, so that a longer one is seen.
            ("crates/format_sheet/src/main.rt", "input", HEAD + TEXT + RECORD + 1),
        ):
            sizes = re.findall(r"let mut %s = \[0u8; (\w+)\];" % name, read(path))
            self.assertEqual([number(one) for one in sizes], [size], "%s: %s" % (path, name))

    def test_format(self):
        """./format names limits in its messages, and no other great numbers."""
        body = re.search(r"^explain\(\) \{\n(.*?)^\}", read("format"), re.M | re.S).group(1)
        found = {number(one) for one in re.findall(r"\b\d{3,}\b", body)}
        self.assertEqual(found, {TEXT, RECORD, FORMS, WIDTH, ROOM})

    def test_tables_of_tokens(self):
        """The tables of the tokens have 4,096 entries, and no crate but these two has tables of its own."""
        found = {}
        for path in sorted(glob.glob(os.path.join(ROOT, "crates/*/src/*.rt"))):
            where = os.path.relpath(path, ROOT)
            sizes = re.findall(r"\b(?:kinds|spans|starts|lens)\b[^\n;]*\[[^\n;]*; (\w+)\]", read(where))
            if sizes:
                found[where] = {TOKENS if size == "MAX_TOKENS" else number(size) for size in sizes}
        self.assertEqual(found, {"crates/reader/src/tokens.rt": {TOKENS}, "crates/testing/src/lib.rt": {TOKENS}})


class Head(unittest.TestCase):
    """Six bytes: tab size (u32), text length (u16). One reader of them in each language."""

    def test_rust_has_one_reader(self):
        users = []
        for top in ("rust", "reference", "bench"):
            for folder, _, files in os.walk(os.path.join(ROOT, top)):
                if "/target" not in folder:
                    users += [os.path.relpath(os.path.join(folder, file), ROOT) for file in files if file.endswith(".rs")]
        # Files of vectors have a form of their own.
        users.remove("reference/crates/vectors/src/file.rs")
        readers = [path for path in users if re.search(r"split_first_chunk|u32::from_le_bytes", read(path))]
        self.assertEqual(readers, ["rust/record/src/input.rs"])

    def test_c(self):
        self.assertIn("HEAD = %d," % HEAD, read("examples/format.c"))
        self.assertRegex(read("examples/format.c"), r"input\[4\] \| \(size_t\)input\[5\] << 8")

    def test_format(self):
        text = read("format")
        self.assertEqual({number(one) for one in re.findall(r'tail -c \+(\d+) "\$work/sheet"', text)}, {HEAD + 1})
        self.assertEqual({number(one) for one in re.findall(r"-j\$\(\((\d+) \+ text", text)}, {HEAD})
        self.assertIn("od -An -tu2 -j4 -N2 --endian=little", text)

    def test_code(self):
        body = read("crates/program/src/lib.rt").split("// ---- the head of the input")[1]
        self.assertEqual({number(one) for one in re.findall(r"\b(\d+) \+ n\b", body)}, {HEAD})


if __name__ == "__main__":
    unittest.main()
