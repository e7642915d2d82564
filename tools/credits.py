#!/usr/bin/env python3
"""credits.py [--check]: writes the theorems about each arm of the walk, from the layouts in crates/layout/specs.

A theorem of crates/measures/proofs says for each arm that the bytes it reads pay for what it writes. Its term follows
the layout: each kind of layout has a law, and the terms of its parts stand where the law takes them. This tool reads
the layouts and the credits.json of each crate that has one, and writes
  measures/proofs/Rows.antt         what each arm of the six families pays;
  measures/proofs/TypesFollow.antt  that each arm of types stays within its fields;
  agreement/proofs/Rows.antt        that each arm of the six families keeps step with the check of its fields.
A definition with a law is cited; any other is unfolded in place, and named under `unfolding`. One that calls itself,
or goes by cases of what is not known, is not regular: its law is written by hand, in Irregular.antt of measures and
Helpers.antt of agreement.

A crate's credits.json has an entry for each file that is written,
  "laws": by the proof file that has them ("" for the theorem's own premises), from a layout over variables to a term,
    in which {x} is the term of a part, {f k} that of f at k, and <c> a configuration as it stands; or to two terms,
    the second where the parts read no field;
  "silent": the layouts that read no field where their parts read none. With it one layout after another is by `before`,
    `behind` or `both`, as one of them reads no field or both do; without it, by `then`;
  "chains": the layouts that read two fields in a row. Such a one before another is `regrouped`;
  "arm", "pick": how an arm of a row stands, and the arm of a number in a row, where not by `arm refl` and `.at`;
  "unfolding": what each theorem unfolds beside layouts;
  "text": the file's lines, with `@f = row` for the theorem of a row of arms and `@uses` for the names that are needed.
With --check nothing is written: the exit status says whether the files are what the layouts give, spaces aside.
"""
import collections
import json
import os
import re
import sys
import textwrap

SPECS = ["Helpers", "GetDec", "Ty", "Pat", "Exp", "SigExp", "StrExp", "DecOne"]
CRATES = ["measures", "agreement"]
ANSWERS = "crates/%s/credits.json"
PROOFS = "crates/%s/proofs/%s.antt"
WIDTH = 150

FORMS = "crates/reader/specs/Forms.antt"

# How tightly the operators of the specs bind; the constructors that clauses go by, with the names of the forms.
BINDS = {"∷": 5, "||": 10, "&&": 20, "⨾": 30}
CONSTRUCTORS = {"true", "false", "zero", "suc"}
TOKEN = re.compile(r'"(?:\\.|[^"\\])*"|\[\]|[()\[\]λ]|\.[\w-]+|[^\s()\[\]λ."]+|\.')

# An expression of the specs: a "name", a "var" that the written term binds, a "text", a "number", a "field", a "call",
# a "λ" with its names, an "elim" with its cases (a function for each behind the subject), or an operator.
Node = collections.namedtuple("Node", "kind value parts")
Definition = collections.namedtuple("Definition", "file opens clauses")
# A term; whether it is a chain of `then`, or reads two fields in a row; whether its layout reads no field.
Term = collections.namedtuple("Term", "text chain silent")


class Unknown(Exception):
    """A layout for which there is no term."""


def name(text):
    return Node("name", text, ())


# ---- reading the definitions

def parse(text):
    tokens = TOKEN.findall(text)[::-1]
    node = expression(tokens)
    if tokens:
        raise Unknown("'%s' is not understood" % tokens[-1])
    return node


def expect(tokens, wanted):
    if not tokens or tokens.pop() != wanted:
        raise Unknown("'%s' is missing" % wanted)


def expression(tokens, least=0):
    """The walks, `ws`, are left out where they are handed on."""
    parts = []
    while tokens and tokens[-1] not in BINDS and tokens[-1] not in (")", "[", "]", "|"):
        parts.append(atom(tokens))
    if not parts:
        raise Unknown("an expression is missing")
    node = apply(parts[0], [part for part in parts[1:] if part != name("ws")])
    while tokens and BINDS.get(tokens[-1], -1) >= least:
        operator = tokens.pop()
        node = Node(operator, None, (node, expression(tokens, BINDS[operator])))
    return node


def atom(tokens):
    token = tokens.pop()
    if token == "λ":
        return function(tokens, ".")
    if token == "elim":
        return elim(tokens)
    if token == "(":
        node = expression(tokens)
        expect(tokens, ")")
    else:
        kind = "text" if token[0] == '"' else "number" if token.isdigit() else "name"
        node = Node(kind, int(token) if kind == "number" else token, ())
    while tokens and re.match(r"\.\w", tokens[-1]):
        node = Node("field", tokens.pop(), (node,))
    return node


def function(tokens, mark):
    names = []
    while tokens and tokens[-1] != mark:
        names.append(tokens.pop())
    expect(tokens, mark)
    return Node("λ", tuple(names), (expression(tokens),))


def elim(tokens):
    subject, cases, bodies = atom(tokens), [], []
    expect(tokens, "[")
    while tokens and tokens[-1] != "]":
        if tokens[-1] == "|":
            tokens.pop()
        cases.append(tokens.pop())
        bodies.append(function(tokens, "↦"))
    expect(tokens, "]")
    return Node("elim", tuple(cases), (subject, *bodies))


def statements(text):
    """The statements of a file, each on one line: what stands four deeper belongs to the line above."""
    found, depth = [], 0
    for line in re.sub(r'("(?:\\.|[^"\\])*")|--.*', r"\1", text).split("\n"):
        indent = len(line) - len(line.lstrip())
        if line.strip() and found and indent >= depth + 4:
            found[-1] += " " + line.strip()
        elif line.strip():
            found.append(line.strip())
            depth = indent
    return found


def read_forms(text):
    """The names of the forms, and their lists as definitions."""
    for line in re.findall(r"^  ([A-Z][\w ]*) : \w+$", text, re.M):
        CONSTRUCTORS.update(line.split())
    return dict((one, Definition(None, False, [("", " ".join(body.split()))]))
                for one, body in re.findall(r"^(\w+_forms) =\n((?:    .*\n)+)", text, re.M))


def read_definitions(files):
    """name to Definition, from {file: text}; a clause is (patterns, body), as text."""
    found = {}
    for file, text in files.items():
        for statement in statements(text):
            head = re.match(r"(unfoldable|abbrev) pub (\S+) :", statement)
            clause = re.match(r"(\S+)((?: [^=:]*)?) = (.*)$", statement)
            if head and head.group(2) in found:
                raise Unknown("'%s' is defined in %s and in %s" % (head.group(2), found[head.group(2)].file, file))
            if head:
                found[head.group(2)] = Definition(file, head.group(1) == "unfoldable", [])
            elif clause and clause.group(1) in found:
                found[clause.group(1)].clauses.append((clause.group(2).strip(), clause.group(3)))
    return found


# ---- computing with expressions

def apply(head, arguments):
    if head.kind == "λ" and len(arguments) >= len(head.value):
        body = replace(head.parts[0], dict(zip(head.value, arguments)))
        return apply(body, arguments[len(head.value):])
    if not arguments:
        return head
    return Node("call", None, (head.parts if head.kind == "call" else (head,)) + tuple(arguments))


def replace(node, values):
    """An expression with others for its names. Those have no free names, only variables, so nothing is captured."""
    if node.kind == "name":
        return values.get(node.value, node)
    if node.kind == "λ":
        values = dict((key, value) for key, value in values.items() if key not in node.value)
    parts = tuple(replace(part, values) for part in node.parts)
    return apply(parts[0], parts[1:]) if node.kind == "call" else Node(node.kind, node.value, parts)


def parts_of(node):
    """The head of a call and its arguments."""
    return (node.parts[0], node.parts[1:]) if node.kind == "call" else (node, ())


def matches(pattern, node, values):
    """Whether an argument meets a clause's pattern, whose names then get their values."""
    head, inner = parts_of(pattern)
    if head.value not in CONSTRUCTORS:
        values[head.value] = node
        return True
    if node.kind == "number":
        node = apply(name("suc"), (Node("number", node.value - 1, ()),)) if node.value else name("zero")
    other, arguments = parts_of(node)
    if other.value not in CONSTRUCTORS:
        raise Unknown("it goes by cases of an argument that is not known")
    return other == head and all(matches(one, two, values) for one, two in zip(inner, arguments))


# ---- writing terms

def argument(term):
    return "(%s)" % term.text if " " in term.text else term.text


class Terms:
    """Writes the terms of a file; `opened` has the definitions that they unfold."""

    def __init__(self, definitions, answers):
        self.definitions, self.silent, self.opened, self.laws = definitions, answers.get("silent"), [], {}
        self.always, self.chains = answers["unfolding"], answers.get("chains", [])
        self.arm, self.pick = answers.get("arm", "arm refl %s"), answers.get("pick", "(%(row)s).at %(number)s")
        for left, right in (line for table in answers["laws"].values() for line in table.items()):
            head, parameters = parts_of(parse(left))
            self.laws.setdefault(head.value, []).append((parameters, right))

    def open(self, what):
        if self.definitions[what].opens and what not in self.opened:
            self.opened.append(what)

    def unfolded(self, what, arguments):
        """The body of a definition at its arguments."""
        if what not in self.definitions:
            raise Unknown("'%s' has no definition and no law" % what)
        for left, body in self.definitions[what].clauses:
            patterns, values = parts_of(parse("f " + left))[1], {}
            if len(patterns) > len(arguments):
                raise Unknown("it stands without its arguments")
            if all(matches(one, two, values) for one, two in zip(patterns, arguments)):
                self.open(what)
                return apply(replace(parse(body), values), arguments[len(patterns):])
        raise Unknown("no clause is met")

    def law(self, head, arguments):
        """The right side of the law of a layout, with the values of its variables; a walk on its left stands for itself."""
        for parameters, right in self.laws.get(head, []):
            pairs = list(zip(parameters, arguments))
            if len(parameters) == len(arguments) and all(one == two for one, two in pairs if one.value in self.laws):
                return right, dict((one.value, two) for one, two in pairs)
        return None

    def term(self, node):
        """The term of a layout."""
        if node.kind == "⨾":
            return self.joined(self.term(node.parts[0]), self.term(node.parts[1]))
        if node.kind == "elim":
            subject, arguments = parts_of(node.parts[0])
            if subject.value not in node.value:
                raise Unknown("'elim' goes by what is not known")
            return self.term(apply(node.parts[1 + node.value.index(subject.value)], arguments))
        head, arguments = parts_of(node)
        if head == name("slice_index_or") and arguments[2:] == (name("halt"),):
            row = " ▹ ".join([term for arm, term in self.row(arguments[0])] + ["no_more"])
            return Term(self.pick % {"row": row, "number": self.shown(arguments[1])}, False, False)
        found = self.law(head.value, arguments)
        if found:
            text, silent = self.by_law(*found)
            return Term(text, head.value in self.chains, silent and head.value in (self.silent or []))
        try:
            return self.term(self.unfolded(head.value, arguments))
        except Unknown as why:
            raise Unknown("%s: %s" % (head.value, why) if head.value in self.definitions else str(why)) from None

    def by_law(self, right, values):
        """The right side of a law with the terms of the parts in their places; whether these read no field."""
        rights = [right] if isinstance(right, str) else right
        bound = dict((one, Node("var", one, ())) for names in re.findall(r"λ ([^.]*)\.", rights[0]) for one in names.split())
        silent = []

        def part(found):
            term = self.term(replace(parse(found.group(2)), dict(bound, **values)))
            silent.append(term.silent)
            return found.group(1) + (term.text if found.group(1) else argument(term))
        texts = [re.sub(r"(\. |)\{([^}]*)\}", part, re.sub(r"<(\w+)>", lambda found: self.shown(values[found.group(1)]), one))
                 for one in rights]
        return texts[-1 if all(silent) else 0], all(silent)

    def joined(self, one, two):
        """One layout after another."""
        if self.silent is None:
            return Term("%s then %s" % (argument(one) if one.chain else one.text, two.text), True, False)
        law = "before" if one.silent else "behind" if two.silent else "both"
        text = "%s %s %s" % (law, argument(one), argument(two))
        if law == "both" and one.chain:
            text = "regrouped (%s)" % text
        return Term(text, law == "both" or one.chain or two.chain, one.silent and two.silent)

    def shown(self, node):
        """A configuration or a number as it stands."""
        if node.kind == "call":
            return "(%s)" % " ".join(self.shown(part) for part in node.parts)
        if node.value in self.definitions:
            self.open(node.value)
        return str(node.value)

    def row(self, node):
        """The arms of a list of layouts, each with its term: a list as it is written, or an arm for each form of a list."""
        head, arguments = parts_of(node)
        if head == name("map"):
            of, forms = arguments
            return [self.in_row(form.value, apply(of, (form,))) for form in self.items(self.unfolded(forms.value, ()))]
        return [self.in_row(parts_of(item)[0].value, item) for item in self.items(node)]

    def in_row(self, arm, node):
        term = self.term(node)
        return arm, self.arm % (term.text if "(" in self.arm else argument(term))

    def items(self, node):
        """The items of a list that is written with ∷."""
        items = []
        while node.kind == "∷":
            items.append(node.parts[0])
            node = node.parts[1]
        if node != name("[]"):
            raise Unknown("a row is a list written with ∷")
        return items


# ---- writing files

def wrapped(text, indent):
    """A term over lines, each of which starts with an operator or a function."""
    text = re.sub(r" (?!then |▹ |\(λ )", "\u00a0", text)
    lines = textwrap.wrap(text, WIDTH - len(indent), break_long_words=False, break_on_hyphens=False)
    return "\n".join(indent + line for line in lines).replace("\u00a0", " ")


def theorem(terms, clause, row, indent):
    """A theorem behind its statement: what it unfolds, and the term of each arm of the row."""
    terms.opened = []
    head, arguments = parts_of(parse(row))
    try:
        arms = terms.row(terms.unfolded(head.value, tuple(Node("var", one.value, ()) for one in arguments)))
    except Unknown as why:
        raise Unknown("%s: %s" % (head.value, why)) from None
    lines = [wrapped(("▹ " if at else "") + term, indent + "    ") + "  -- " + arm for at, (arm, term) in enumerate(arms)]
    return [indent + "unfolding " + " ".join(terms.opened + terms.always), indent + clause + " =", *lines, indent + "    ▹ no_more"]


def uses(crate, definitions, laws, lines):
    """The lines that bring in what a file names: definitions by their files, then laws."""
    words = set(re.findall(r"[^\s(){}]+", "\n".join(lines)))
    names = dict(("Rattle.layout.specs." + file, []) for file in SPECS)
    for one, definition in definitions.items():
        if definition.file:
            names["Rattle.layout.specs." + definition.file].append(one)
    for file, table in laws.items():
        names["Rattle.%s.proofs.%s" % (crate, file)] = dict.fromkeys(
            right.split()[0] for rights in table.values() for right in ([rights] if isinstance(rights, str) else rights) if file)
    found = dict((library, [one for one in own if one in words]) for library, own in names.items())
    return ["use %s.{%s}" % (library, ", ".join(own)) for library, own in found.items() if own]


def filled(crate, definitions, answers):
    """The text of a file."""
    terms, lines = Terms(definitions, answers), []
    for line in answers["text"]:
        found = re.match(r"( *)@(.*) = (.*)$", line)
        lines += theorem(terms, found.group(2), found.group(3), found.group(1)) if found else [line]
    at = lines.index("@uses")
    lines[at:at + 1] = uses(crate, definitions, answers["laws"], lines[at + 1:])
    return "".join(line + "\n" for line in lines)


def main():
    if sys.argv[1:] not in ([], ["--check"]) or not all(os.path.exists(ANSWERS % crate) for crate in CRATES):
        raise SystemExit("usage: tools/credits.py [--check], from the repository's root")
    files = [(crate, file, answers) for crate in CRATES for file, answers in json.load(open(ANSWERS % crate)).items()]
    crate = None
    try:
        definitions = read_forms(open(FORMS).read())
        definitions.update(read_definitions(dict((file, open("crates/layout/specs/%s.antt" % file).read()) for file in SPECS)))
        texts = {}
        for crate, file, answers in files:
            texts[PROOFS % (crate, file)] = filled(crate, definitions, answers)
    except Unknown as why:
        raise SystemExit("credits: %s%s.\nA layout that is not regular takes a law by hand, in Irregular.antt of measures and in "
                         "Helpers.antt of agreement, and a line that cites it in the crate's credits.json."
                         % (crate + ": " if crate else "", why))
    for path, text in texts.items():
        if not sys.argv[1:]:
            open(path, "w").write(text)
            print("wrote", path)
        elif not os.path.exists(path) or open(path).read().split() != text.split():
            raise SystemExit("credits: %s is not what the layouts give: run 'python3 tools/credits.py'" % path)


if __name__ == "__main__":
    main()
