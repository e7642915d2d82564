"""Tests of unfold.py: the file is what the definitions give."""
import os
import subprocess
import sys
import unittest

ROOT = os.path.join(os.path.dirname(os.path.abspath(__file__)), "..")


class Unfold(unittest.TestCase):
    def test_file_is_what_the_definitions_give(self):
        subprocess.run([sys.executable, "tools/unfold.py", "--check"], cwd=ROOT, check=True)

    def test_another_argument_is_refused(self):
        done = subprocess.run([sys.executable, "tools/unfold.py", "--other"], cwd=ROOT, capture_output=True, check=False)
        self.assertNotEqual(done.returncode, 0)


if __name__ == "__main__":
    unittest.main()
