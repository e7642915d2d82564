"""Tests that all who name a refusal agree with docs/REFUSALS.md: number, name, place, what to do."""
import collections
import glob
import os
import re
import unittest

ROOT = os.path.join(os.path.dirname(os.path.abspath(__file__)), "..")
Refusal = collections.namedtuple("Refusal", "number name calls place advice")


def read(path):
    with open(os.path.join(ROOT, path), encoding="utf-8") as file:
        return file.read()


def table():
    rows = re.findall(r"^\| (\d+) \| (\w+) \| (.*?) \| (.*?) \| (.*?) ?\|$", read("docs/REFUSALS.md"), re.M)
    return [Refusal(int(number), name, calls.split(", "), place, advice) for number, name, calls, place, advice in rows]


REFUSALS = table()
NUMBERS = {refusal.name: refusal.number for refusal in REFUSALS}


def constant(name):
    """`NotUtf8` as `NOT_UTF8`."""
    return re.sub(r"(?<!^)(?=[A-Z])", "_", name).upper()


def joined(text):
    """A source of Rust with the lines of a text in one."""
    return re.sub(r"\\\n\s*", "", text)


def told_by(*calls):
    return [refusal for refusal in REFUSALS if refusal.number and set(calls) & set(refusal.calls)]


class Refusals(unittest.TestCase):
    def test_table(self):
        numbers = [refusal.number for refusal in REFUSALS]
        self.assertEqual(numbers, sorted(set(numbers)))
        self.assertEqual(len(NUMBERS), len(REFUSALS))
        for refusal in REFUSALS:
            self.assertLessEqual(set(refusal.calls), {"check", "get", "lookups", "scan"})
            self.assertRegex(refusal.place, r"^(0|text: .*|record: .*)$")
            self.assertEqual(bool(refusal.number), bool(refusal.advice), refusal.name)

    def test_header(self):
        lines = re.findall(r"^    DIVERPLUME_(\w+) = (\d+),? *(?:/\* (.*?) \*/)?$", read("include/diverplume.h"), re.M)
        self.assertEqual([(name, int(number)) for name, number, _ in lines], [(constant(r.name), r.number) for r in REFUSALS])
        for (_, _, comment), refusal in zip(lines, REFUSALS):
            self.assertEqual(comment.startswith("place: "), refusal.place != "0", refusal.name)

    def test_library(self):
        cases, number = [], -1
        body = re.search(r"pub enum Number \{\n(.*?)\n\}", read("rust/diverplume/src/verdict.rs"), re.S).group(1)
        for name, given in re.findall(r"^    (\w+)(?: = (\d+))?,$", body, re.M):
            number = int(given) if given else number + 1
            cases.append((name, number))
        self.assertEqual(cases, [(refusal.name, refusal.number) for refusal in REFUSALS])

    def test_reference(self):
        body = re.search(r"pub mod number \{\n(.*?)\n\}", read("reference/crates/decode/src/lib.rs"), re.S).group(1)
        found = [(name, int(number)) for name, number in re.findall(r"pub const (\w+): u8 = (\d+);", body)]
        self.assertEqual(found, [(constant(refusal.name), refusal.number) for refusal in REFUSALS])

    def holds(self, where, pattern, number, error=None):
        """A case that the table does not name is no refusal. The walk's stop at a part that is absent is what the table names Missing."""
        case = re.findall(r"[A-Z]\w*", pattern)[-1]
        name = {"Absent": "Missing", "Err": error}.get(case, case)
        self.assertEqual(NUMBERS.get(name, 0), number, "%s: %s is %d" % (where, pattern, number))
        return number

    def test_definitions(self):
        told = []
        for path in glob.glob(os.path.join(ROOT, "crates/*/specs/**/*.antt"), recursive=True):
            where = os.path.relpath(path, ROOT)
            text = read(where)
            # The error of a definition whose `Err` has one case, which its type names.
            errors = dict(re.findall(r"^unfoldable pub (\w+) : Result (?:\([^)]*\)|\S+) (\w+) →", text, re.M))
            given = r"^ *(number_of|verdict_of|doc_said) ([^=]*?) = (?:plain |doc \(looked )?(\d+)\b"
            for definition, pattern, number in re.findall(given, text, re.M):
                told.append(self.holds(where, pattern, int(number), errors.get(definition)))
        self.assertEqual(set(told) - {0}, set(NUMBERS.values()) - {0})

    def test_numbers_in_the_code(self):
        told = []
        for path in glob.glob(os.path.join(ROOT, "crates/*/src/*.rt")):
            where = os.path.relpath(path, ROOT)
            text = read(where)
            # The cases of the methods `number`, and those with a row of numbers that starts with it.
            numbered = "".join(re.findall(r"^    pub fn number\(self\).*?^    \}$", text, re.M | re.S))
            cases = re.findall(r"^ +([A-Z][\w:]*(?:\(.*\))?) => (\d+),$", numbered, re.M) + re.findall(r"^ +([A-Z].*?) => \[(\d+),", text, re.M)
            told += [self.holds(where, pattern, int(number)) for pattern, number in cases]
        self.assertEqual(set(told) - {0}, set(NUMBERS.values()) - {0})

    def test_format_explains_what_the_program_prints(self):
        body = re.search(r"^explain\(\) \{\n(.*?)^\}", read("format"), re.M | re.S).group(1)
        said = {}
        for labels, text in re.findall(r"^    ([\d |]+)\) (.*?) ;;$", body, re.M):
            said.update((int(label), text) for label in labels.split("|"))
        self.assertEqual(sorted(said), [refusal.number for refusal in told_by("get")])
        for refusal in told_by("get"):
            text = said[refusal.number]
            # The words of the library; the program lends its own output.
            if not text.startswith("stop_at") and refusal.name != "OutputTooShort":
                self.assertIn(refusal.advice, text)

    def test_examples_have_a_reason(self):
        for path, calls in (("examples/format.c", ("check", "get")), ("examples/tokens.c", ("scan",))):
            text = read(path)
            listed = re.search(r"REASONS\[\] = \{\n(.*?)\n\};", text, re.S)
            plain = len(re.findall(r'^    "', listed.group(1), re.M)) if listed else 0
            for refusal in told_by(*calls):
                if refusal.name != "OutputTooShort":
                    named = re.search(r"\bDIVERPLUME_%s\b" % constant(refusal.name), text)
                    self.assertTrue(named or refusal.number < plain, "%s: %s" % (path, refusal.name))

    def test_messages_end_with_the_advice(self):
        paths = glob.glob(os.path.join(ROOT, "rust/diverplume/src/*.rs")) + glob.glob(os.path.join(ROOT, "rust/record/src/*.rs"))
        said = "".join(joined(read(os.path.relpath(path, ROOT))) for path in paths)
        for refusal in REFUSALS:
            self.assertTrue(refusal.advice in said, "no message has '%s', the advice of %d" % (refusal.advice, refusal.number))

    def test_each_message_is_tested(self):
        paths = glob.glob(os.path.join(ROOT, "rust/diverplume/tests/library/*.rs"))
        tested = "".join(joined(read(os.path.relpath(path, ROOT))) for path in paths)
        for refusal in REFUSALS[1:]:
            shown = re.search(r'"(refused|declined) \(%d\): ' % refusal.number, tested)
            self.assertTrue(shown, "no test has the message of %d" % refusal.number)


if __name__ == "__main__":
    unittest.main()
