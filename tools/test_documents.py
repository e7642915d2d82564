"""Tests of the documents: what they name is there, and what tools write is marked as such."""
import os
import re
import unittest

ROOT = os.path.join(os.path.dirname(os.path.abspath(__file__)), "..")
# Records of what was: they name files that were there then.
RECORDS = ("docs/landings/", "docs/PORT.md", "docs/DESIGN-PASS.md")


def read(path):
    with open(os.path.join(ROOT, path), encoding="utf-8") as file:
        return file.read()


def files(folder, *endings):
    """The files below a folder of the repository, those that are built aside."""
    for where, folders, names in os.walk(os.path.join(ROOT, folder)):
        folders[:] = sorted(name for name in folders if name not in (".git", "out", "target"))
        for name in sorted(names):
            if name.endswith(endings or ("",)):
                yield os.path.relpath(os.path.join(where, name), ROOT)


def pattern(text):
    """A pattern of .gitattributes; without a slash it is one of the name alone."""
    parts = {"**": ".*", "*": "[^/]*", ".": r"\.", "+": r"\+"}
    shown = re.sub(r"\*\*|[*.+]", lambda found: parts[found.group()], text)
    return re.compile(shown if "/" in text else "(.*/)?" + shown)


def is_generated(path):
    """Whether the last line of .gitattributes that says something of it marks the file as generated."""
    lines = [line.split() for line in read(".gitattributes").split("\n") if line and not line.startswith("#")]
    said = [words for name, *words in lines if pattern(name).fullmatch(path)]
    marks = [word for words in said for word in words if word.lstrip("-") == "linguist-generated"]
    return bool(marks) and marks[-1] == "linguist-generated"


def anchors(path):
    """The anchors of a document's headings."""
    heads = re.findall(r"^#+ (.*)$", read(path), re.M)
    return {re.sub(r"[^a-z0-9 _-]", "", head.lower()).replace(" ", "-") for head in heads}


class Documents(unittest.TestCase):
    def test_notice_names_what_is_there(self):
        own = read("NOTICE").split("Both licence texts")[0]
        names = re.findall(r"\b(?:crates|reference|rust|docs)/[\w./-]*\w", own)
        names = [name for name in names if not re.match(r"crates/(sml-naive-fmt|sml-comment)/", name)]
        self.assertIn("crates/walk", names)
        for name in names:
            self.assertTrue(os.path.exists(os.path.join(ROOT, name)), "NOTICE names %s" % name)

    def test_notice_names_the_crates_of_the_walk(self):
        for crate in ("layout", "types", "patterns", "leaves", "walk"):
            self.assertRegex(read("NOTICE"), r"\bcrates/%s\b" % crate)

    def test_links_lead_somewhere(self):
        for path in files("", ".md"):
            for target in re.findall(r"\]\(([^)\s]+)\)", read(path)):
                if "://" in target:
                    continue
                name, _, anchor = target.partition("#")
                file = os.path.normpath(os.path.join(os.path.dirname(path), name)) if name else path
                self.assertTrue(os.path.exists(os.path.join(ROOT, file)), "%s: %s" % (path, target))
                if anchor:
                    self.assertIn(anchor, anchors(file), "%s: %s" % (path, target))

    def test_tools_that_documents_name_are_there(self):
        for path in files("", ".md"):
            if path.startswith(RECORDS):
                continue
            for name in re.findall(r"\btools/\w+\.py\b", read(path)):
                self.assertTrue(os.path.exists(os.path.join(ROOT, name)), "%s: %s" % (path, name))

    def test_one_licence(self):
        for path in files("", "Cargo.toml"):
            for licence in re.findall(r'^license = "(.*)"$', read(path), re.M):
                self.assertIn(licence, read("LICENSE"), path)

    def test_what_tools_write_is_marked(self):
        paths = [path for path in files("crates", ".antt") if re.search(r"^-- (.*\. )?Written by (`python3 )?tools/", read(path)[:2000], re.M)]
        self.assertGreater(len(paths), 3)
        for path in paths:
            self.assertTrue(is_generated(path), "%s is written by a tool; .gitattributes does not say so" % path)
        for path in ("tools/credits.py", "crates/leaves/proofs/int_lit/Answers.antt", "crates/layout/proofs/Steps.antt"):
            self.assertTrue(os.path.exists(os.path.join(ROOT, path)), path)
            self.assertFalse(is_generated(path), path)


if __name__ == "__main__":
    unittest.main()
