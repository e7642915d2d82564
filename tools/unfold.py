#!/usr/bin/env python3
"""unfold.py [--check]: writes crates/theorems/proofs/Run.antt, whose name `run` opens every definition of specs/.

A theorem about a sheet is closed by computation under `unfolding run`. Definitions of specs/Promises, which speak of
the code, and of the answers before Ticket 5 are left out: no sheet's answer is computed by them.
With --check nothing is written: the exit status says whether the file is what the definitions give, spaces aside.
"""
import os
import re
import sys

LEFT_OUT = {"Ascii", "AsciiDoc", "AsciiProgram"}
FILE = "crates/theorems/proofs/Run.antt"
CRATES = ["text", "reader", "comments", "layout", "agreement", "formatter", "program", "theorems"]


def modules():
    """(crate, module, names) for each file of specs/ that has definitions to open."""
    for crate in CRATES:
        for name in re.findall(r"^pub mod (\S+)$", open("crates/%s/specs/Lib.antt" % crate).read(), re.M):
            text = open("crates/%s/specs/%s.antt" % (crate, name)).read()
            names = re.findall(r"^\s*unfoldable pub (\S+) :", text, re.M)
            if names and name not in LEFT_OUT:
                yield crate, name, names


def opened(module):
    """The name that opens a module's definitions: `run_at` for At."""
    return "run_" + re.sub(r"(?<=[a-z0-9])(?=[A-Z])", "_", module).lower()


def text():
    """What the file has to be."""
    found = list(modules())
    lines = ["-- `unfolding run` opens every definition of specs/, so that a theorem about a sheet is closed by computation.",
             "-- Written by tools/unfold.py."]
    for crate, name, names in found:
        lines.append("use Rattle.%s.specs.%s as %s" % (crate, name, name))
    for crate, name, names in found:
        lines += ["", "unfoldable pub %s : Unit {0}" % opened(name), "unfolding " + " ".join(name + "." + one for one in names), "%s = tt" % opened(name)]
    lines += ["", "unfoldable pub run : Unit {0}", "unfolding " + " ".join(opened(name) for crate, name, names in found), "run = tt"]
    return "\n".join(lines) + "\n"


def main(arguments):
    if not os.path.exists("crates/theorems"):
        raise SystemExit("unfold: run it from the repository's root")
    if arguments == ["--check"]:
        with open(FILE, encoding="utf-8") as file:
            if file.read().split() != text().split():
                raise SystemExit("unfold: %s is not what the definitions give; run python3 tools/unfold.py" % FILE)
    elif arguments:
        raise SystemExit(__doc__)
    else:
        with open(FILE, "w", encoding="utf-8") as out:
            out.write(text())


if __name__ == "__main__":
    main(sys.argv[1:])
