"""Tests of byte_table.py: the page of letters and digits is made of the table itself."""
import os
import subprocess
import sys
import unittest

sys.path.insert(0, os.path.dirname(__file__))
import byte_table as tool  # noqa: E402

ROOT = os.path.join(os.path.dirname(__file__), "..")


class Table(unittest.TestCase):
    def test_page_is_what_the_table_gives(self):
        subprocess.run([sys.executable, "tools/byte_table.py", "--check"], cwd=ROOT, check=True)

    def test_sixteen_rows_of_sixteen(self):
        rows = [line for line in tool.page("-" * 48 + "9" * 10 + "a" * 198).split("\n") if line.startswith("| **")]
        self.assertEqual(len(rows), 16)
        self.assertEqual(rows[3], "| **3** | " + " | ".join(["`9`"] * 10 + ["`a`"] * 6) + " |")

    def test_another_entry_is_another_page(self):
        table = tool.entries(open(os.path.join(ROOT, tool.SOURCE)).read())
        self.assertNotEqual(tool.page(table), tool.page(table[:58] + "a" + table[59:]))

    def test_a_table_of_another_length_is_refused(self):
        with self.assertRaises(SystemExit):
            tool.entries('const CLASSES: [u8; 256] =\n    *b"a9-";\n')


if __name__ == "__main__":
    unittest.main()
