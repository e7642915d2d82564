"""Tests that the schema of rust/record has the forms and fields of the definitions in crates/reader/specs.

The code's table of fields is proved against the definitions, and the schema is compared with 000's text in reference/.
"""
import os
import re
import unittest

ROOT = os.path.join(os.path.dirname(os.path.abspath(__file__)), "..")
FAMILIES = {"DecOne": "dec", "StrExp": "str_exp", "SigExp": "sig_exp", "Exp": "exp", "Pat": "pat", "Ty": "ty"}


def read(path):
    with open(os.path.join(ROOT, path), encoding="utf-8") as file:
        return file.read()


class Definitions:
    """Fields.antt and Forms.antt: fields are written `token`, `form Exp`, `[..]` a list, `{..}` a group, `<..|..>` a choice."""

    def __init__(self):
        text = re.sub(r" *--.*", "", read("crates/reader/specs/Fields.antt"))
        self.bodies = {}
        for head, body in re.findall(r"^(\w+(?: \w+)?) = (.*?)(?=^\S|\Z)", text, re.M | re.S):
            self.bodies[head] = re.findall(r"[()]|▸|∷|\[\]|\w+", body)
        forms = read("crates/reader/specs/Forms.antt")
        self.forms = {}
        for family, name in FAMILIES.items():
            listed = re.search(r"^%s_forms =\n(.*?)\[\]" % name, forms, re.M | re.S).group(1)
            self.forms[family] = re.findall(r"\w+", listed)
        self.first = {family: int(first, 16) for family, first in re.findall(r"^first_form (\w+) = (0x\w+)$", text, re.M)}

    def of_form(self, family, form):
        return self.shape(self.bodies["%s_fields %s" % (FAMILIES[family], form)])

    def shape(self, tokens):
        shown, rest = self.fields(list(tokens))
        assert not rest, rest
        return shown

    def fields(self, tokens):
        """Fields joined by ▸."""
        shown, tokens = self.field(tokens)
        while tokens and tokens[0] == "▸":
            more, tokens = self.field(tokens[1:])
            shown += " " + more
        return shown, tokens

    def field(self, tokens):
        word, tokens = tokens[0], tokens[1:]
        if word == "form":
            return "form " + tokens[0], tokens[1:]
        if word == "(":
            shown, tokens = self.fields(tokens)
            assert tokens[0] == ")", tokens
            return shown, tokens[1:]
        if word in ("list", "group"):
            shown, tokens = self.field(tokens)
            return ("[%s]" if word == "list" else "{%s}") % shown, tokens
        if word == "one_of":
            return self.choice(tokens[1:])
        if word in ("token", "none"):
            return "token" if word == "token" else "", tokens
        return self.shape(self.bodies[word]), tokens

    def choice(self, tokens):
        cases = []
        while tokens[0] != "[]":
            shown, tokens = self.fields(tokens)
            cases.append(shown)
            tokens = tokens[1:]
        return "<%s>" % "|".join(cases), tokens[2:]


class Schema:
    """nodes.rs, written the same way."""

    def __init__(self):
        text = re.sub(r"//.*", "", read("rust/record/src/nodes.rs"))
        nodes, families, choices = re.search(r"\bnodes \{(.*?)\bfamilies \{(.*?)\bchoices \{(.*?)\n            \}", text, re.S).groups()
        self.nodes = {name: re.findall(r"\w+: \(([^)]*)\)", body) for name, body in re.findall(r"(\w+) \{(.*?)\}", nodes, re.S)}
        self.forms = {family: body.split() for family, _, body in re.findall(r"(\w+) (0x\w+) \[(.*?)\]", families, re.S)}
        self.first = {family: int(first, 16) for family, first, _ in re.findall(r"(\w+) (0x\w+) \[(.*?)\]", families, re.S)}
        self.choices = {name: body.split() for name, body in re.findall(r"(\w+) \[(.*?)\]", choices, re.S)}

    def of_node(self, node):
        return " ".join(self.shape(field.split()) for field in self.nodes[node])

    def shape(self, words):
        kind, *rest = words
        if kind == "list":
            return "[%s]" % self.shape(rest)
        if kind == "group":
            return "{%s}" % self.of_node(rest[0])
        if kind == "choice":
            return "<%s>" % "|".join(self.of_node(node) for node in self.choices[rest[0]])
        return "token" if kind == "token" else "form " + rest[0]


class Same(unittest.TestCase):
    def test_forms(self):
        definitions, schema = Definitions(), Schema()
        self.assertEqual(definitions.forms, schema.forms)
        self.assertEqual(definitions.first, schema.first)
        self.assertEqual(sum(len(forms) for forms in schema.forms.values()), 75)

    def test_fields(self):
        definitions, schema = Definitions(), Schema()
        for family, forms in schema.forms.items():
            for form in forms:
                self.assertEqual(definitions.of_form(family, form), schema.of_node(form), form)

    def test_root(self):
        self.assertEqual(Schema().of_node("Root"), "[%s]" % Definitions().shape(["Dec"]))

    def test_shapes(self):
        self.assertEqual(Schema().of_node("ExBind"), "token <form Ty|form Exp>")
        self.assertEqual(Definitions().of_form("Pat", "RecordPat"), "[{<|token form Pat|token {form Ty} {form Pat}>}]")


class Cycles(unittest.TestCase):
    def test_names_of_a_cycle_fit_the_archive(self):
        """A checked module is kept in an archive up to 249 bytes of name (DECISIONS C7)."""
        for crate in os.listdir(os.path.join(ROOT, "crates")):
            proofs = os.path.join(ROOT, "crates", crate, "proofs")
            for folder, _, _ in os.walk(proofs) if os.path.isdir(proofs) else ():
                name = os.path.basename(folder)
                if name.startswith("+"):
                    told = "%s: the names of a cycle have %d bytes; give its functions shorter names or move some out of it, else every crate above proves it again"
                    self.assertLessEqual(len(name.encode()), 249, told % (crate, len(name.encode())))


if __name__ == "__main__":
    unittest.main()
