"""Tests of tables.py: the page is what the sources give, and what is missing or strange is told."""
import os
import subprocess
import sys
import unittest
from unittest import mock

sys.path.insert(0, os.path.dirname(__file__))
import tables as tool  # noqa: E402

ROOT = os.path.join(os.path.dirname(os.path.abspath(__file__)), "..")

SPECS = """-- A file.
pub use text.specs.Bytes.{◌‥◌}

unfoldable pub one : ℕ → ℕ
one n = n

pub record Pair : Type 0 where
  pub left : ℕ
  pub right : ℕ

module _ (ws : Walkers) where
  unfoldable pub two : ℕ
  two = 2

pub data Kind : Type 0 where
  plain loud : Kind

abbrev pub three : ℕ
"""

SOURCE = """use leaves::selector;
use layout::word;

fn exp(st: St) -> Answer
    ensures { r }
{
    let Read::Is(k, s) = form(st) else {
        return stop(s);
    };
    match k {
        0 => Answer::Done(word(s)),
        1 => selector(s),
        2 => paren(
            s,
            sub(s),
        ),
        _ => stop(s),
    }
}

fn paren(st: St) -> Answer
{
    st
}
"""


class Sources(unittest.TestCase):
    def test_names_from_elsewhere(self):
        text = "use leaves::selector;\nuse layout::{Cfg, word};\nuse layout::fields::{\n    form,\n    list,\n};\n"
        paths = {"selector": "leaves::selector", "Cfg": "layout::Cfg", "word": "layout::word", "form": "layout::fields::form", "list": "layout::fields::list"}
        self.assertEqual(paths, tool.used(text))

    def test_public_definitions(self):
        names, others = tool.public(SPECS)
        self.assertEqual(names, ["one", "Pair", "two", "Kind", "three"])
        self.assertEqual(others, {"left", "right", "plain", "loud"})

    def test_definitions_of_a_line(self):
        self.assertEqual(tool.placed("Bytes.a b Utf8.c _‥_"), [("Bytes", "a"), ("Bytes", "b"), ("Utf8", "c"), ("Utf8", "_‥_")])
        self.assertEqual(tool.cell([("Bytes", "a"), ("Bytes", "b"), ("Utf8", ["c", "d"])]), "`Bytes.a`, `b`, `Utf8`: `c`, `d`")

    def test_cases_by_number_and_by_name(self):
        body = tool.functions(SOURCE)["exp"]
        self.assertEqual(len(tool.cases(body, ["A", "B", "C"])), 3)
        self.assertIsNone(tool.cases(body, ["A", "B"]))
        named = body.replace("0 =>", "Form::A =>").replace("1 =>", "Form::B =>").replace("2 =>", "Form::C(x) =>")
        self.assertEqual(len(tool.cases(named, ["A", "B", "C"])), 3)
        self.assertIsNone(tool.cases(named, ["B", "A", "C"]))

    def test_where_the_code_of_an_arm_stands(self):
        sources = {("walk", "lib"): SOURCE, ("leaves", "lib"): "pub fn selector(s: St)\n{\n}\n", ("layout", "lib"): "pub fn word(s: St)\n{\n}\n"}
        codes = tool.cases(tool.functions(SOURCE)["exp"], ["A", "B", "C"])
        found = [tool.code_of(sources, "walk", "lib", "exp", code) for code in codes]
        self.assertEqual(found, ["in `walk::exp`", "`leaves::selector`", "`walk::paren`"])

    def test_lines_of_an_arm(self):
        text = "  match ty {\n    ast::Ty::A(_) => x,\n    ast::Ty::B(ty) => {\n      y\n    }\n    ast::Ty::C(ty) => in_end(\n      z,\n    )?,\n  }\n"
        self.assertEqual([tool.arm_lines(text, "Ty", name) for name in "ABC"], ["2", "3 to 5", "6 to 8"])
        with self.assertRaises(SystemExit):
            tool.arm_lines(text, "Ty", "D")


class Repository(unittest.TestCase):
    def setUp(self):
        self.before = os.getcwd()
        os.chdir(ROOT)

    def tearDown(self):
        os.chdir(self.before)

    def test_page_is_what_the_sources_give(self):
        subprocess.run([sys.executable, "tools/tables.py", "--check"], check=True)

    def test_every_public_definition_is_on_the_page(self):
        page = tool.read(tool.PAGE)
        count = 0
        for crate in tool.crates():
            for names, _ in tool.specs(crate).values():
                count += len(names)
                for name in names:
                    self.assertTrue("`%s`" % name in page or ".%s`" % name in page, "%s %s" % (crate, name))
        self.assertGreater(count, 600)

    def test_a_definition_without_a_line_is_shown(self):
        rows = [row for row in tool.rows() if "Bytes.bytes" not in row.names]
        with mock.patch.object(tool, "rows", lambda: rows):
            self.assertIn("| `Bytes`: `bytes` | (no sentence of its own) |", tool.definitions("text"))

    def test_a_line_without_a_definition_is_refused(self):
        rows = tool.rows() + [tool.Row("text", "Bytes.gone", "", "")]
        with mock.patch.object(tool, "rows", lambda: rows), self.assertRaisesRegex(SystemExit, "Bytes.gone"):
            tool.definitions("text")

    def test_a_definition_with_two_lines_is_refused(self):
        rows = tool.rows() + [tool.Row("text", "Bytes.bytes", "", "")]
        with mock.patch.object(tool, "rows", lambda: rows), self.assertRaisesRegex(SystemExit, "twice: Bytes.bytes"):
            tool.definitions("text")

    def test_a_table_that_is_missing_is_told(self):
        with self.assertRaisesRegex(SystemExit, "definitions walk|arms Ty"):
            tool.page(tool.read(tool.PAGE).replace("<!-- tables: arms Ty -->", ""))


if __name__ == "__main__":
    unittest.main()
