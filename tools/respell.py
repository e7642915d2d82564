#!/usr/bin/env python3
"""Gives the repository's own definitions and lemmas the spelling of today's Rattle.

usage: python3 tools/respell.py        at the top, once, right behind /opt/rattle/port/port.py

Names in camel case become snake case: `isSpace` is `is_space`, and so do definitions of specs/ with a dash: `get-ty` is `get_ty`. In a
lemma's name a dash joins two names, one of which is a definition's, as in `map-take`; any other dash becomes `_`. The module `Contracts` of specs/ becomes `Promises`, since Rattle makes
a module `specs.contracts` of its own. Only .antt files and clauses and comments of .rt files are touched: functions of src/, strings and
generated names are in no list. A new name that a file has already is not given, and is told.
"""

import collections
import os
import re
import sys

WORD = re.compile(r"[A-Za-zα-ωℕ_][\w'-]*")
CAMEL = re.compile(r"(?<=[a-z0-9])(?=[A-Z])")
# Lemmas that would have a definition's name.
LEMMAS = {"letter-entry": "letter_entry_lem", "digit-entry": "digit_entry_lem", "digitValue": "value_of_digit"}
# A definition that one file imports under what is its own name now.
ALIASES = {"indent_deeper"}
# Phrases, in which a definition's name is only a word.
PHRASES = re.compile(r".*-not-5|first-bytes-suffice")
TYPES = {"Not-5": "IsNot5", "Prints-not-5": "PrintsNot5"}
# Numbers in hexadecimal and code points, which only look like names in camel case.
NUMBER = re.compile(r"[xu][0-9A-F_]+(u8)?")
INDENTED = re.compile(r"(?m)^ *(?:abbrev |unfoldable |pub |\| *)*([a-z][\w'-]*)(?: [a-z][\w'-]*)* :")
TOP = re.compile(r"(?m)^(?:abbrev |unfoldable |pub )*([a-z][\w'-]*) :")


def sources(root):
    for folder, folders, files in os.walk(os.path.join(root, "crates")):
        folders[:] = sorted(it for it in folders if it != "out")
        for name in sorted(files):
            if name.endswith((".antt", ".rt")):
                yield os.path.join(folder, name)


def is_own(path):
    """A file of specs/, or a lemma file right in proofs/: what it defines is named by the author."""
    parts = path.split(os.sep)
    at = parts.index("crates") + 2
    return path.endswith(".antt") and (parts[at] == "specs" or (parts[at] == "proofs" and len(parts) == at + 2))


def snake(name):
    return CAMEL.sub("_", name).lower()


def joined(name, definitions):
    """The name with `_` for each dash that joins no definition's name to the rest."""
    parts = name.split("-")
    for at in range(1, len(parts)):
        left, right = "_".join(parts[:at]), "_".join(parts[at:])
        if left in definitions or right in definitions:
            return left + "-" + right
    return "_".join(parts)


def new_names(texts):
    camel, dashed, definitions, defined = set(), set(), set(), set()
    for path, text in texts.items():
        camel |= {it for it in WORD.findall(text) if CAMEL.search(it) and it[0].islower() and not NUMBER.fullmatch(it)}
        if is_own(path):
            top = set(TOP.findall(text))
            dashed |= {it for it in top if "-" in it}
            if os.sep + "specs" + os.sep in path:
                defined |= {it for it in INDENTED.findall(text) if "-" in it}
                definitions |= {snake(it) for it in top if "-" not in it}
    names = dict(TYPES)
    for old in camel | dashed | defined:
        if old in defined or PHRASES.fullmatch(old):
            new = snake(old).replace("-", "_")
        else:
            new = joined(snake(old), definitions) if old in dashed else snake(old)
        if new != old:
            names[old] = LEMMAS.get(old, new)
    return names, defined


def own_words(path, text):
    """The words of a file that a new name could fall together with: no comments, no paths, and of .rt files parameters and locals alone."""
    if path.endswith(".rt"):
        return set(re.findall(r"\b(\w+): ", text)) | set(re.findall(r"\blet (?:mut )?(\w+)", text))
    code = re.sub(r"--.*", "", text)
    return {it[0] for it in WORD.finditer(code) if code[it.start() - 1 : it.start()] != "."}


def clashes(texts, names):
    """Old names whose new one a file has already, or gets from two old ones."""
    bad = collections.defaultdict(set)
    for path, text in texts.items():
        here = {it for it in WORD.findall(text) if it in names} | own_words(path, text)
        gets = collections.Counter(names[it] for it in here if it in names)
        for old in here:
            new = names.get(old)
            if new and (new in here or gets[new] > 1) and new not in ALIASES:
                bad[old].add(path)
    return bad


def turned(path, text, names, defined):
    def one(match):
        word = match[0]
        if word not in names:
            return word
        before = text[max(0, match.start() - 40) : match.start()]
        # A generated name behind a value, as in `c.at-end`, keeps its dash; behind a module's name it is ours.
        if "-" in word and word not in defined and before.endswith(".") and not re.search(r"\b[A-Z]\w*\.$", before):
            return word
        return names[word]

    text = WORD.sub(one, text)
    text = re.sub(r"(?<![\w-])(\w+) as \1(?=[,}])", r"\1", text)
    text = re.sub(r"(?<=\.specs\.)Contracts\b", "Promises", text)
    if path.endswith(os.path.join("specs", "Lib.antt")):
        text = re.sub(r"(?m)^pub mod Contracts$", "pub mod Promises", text)
    return text


def move_contracts(root):
    for folder, folders, files in os.walk(os.path.join(root, "crates")):
        if os.path.basename(folder) != "specs":
            continue
        for name in ("Contracts.antt", "Contracts"):
            if name in files + folders:
                os.rename(os.path.join(folder, name), os.path.join(folder, name.replace("Contracts", "Promises")))


def main(root="."):
    texts = {}
    for path in sources(root):
        with open(path, encoding="utf-8") as file:
            texts[path] = file.read()
    names, defined = new_names(texts)
    for old, paths in sorted(clashes(texts, names).items()):
        print(f"kept: {old}: {names[old]} stands in {' '.join(sorted(paths))[:200]}")
    names = {old: new for old, new in names.items() if old not in clashes(texts, names)}
    for path, text in texts.items():
        new = turned(path, text, names, defined)
        if new != text:
            with open(path, "w", encoding="utf-8") as file:
                file.write(new)
    move_contracts(root)
    print(f"{len(names)} names")
    return 0


if __name__ == "__main__":
    sys.exit(main())
