#!/usr/bin/env python3
"""tables.py [--check]: writes the tables of docs/ARCHITECTURE.md that name definitions, arms and helpers.

A table stands between `<!-- tables: NAME -->` and `<!-- end -->`; all else on the page is prose. NAME is
  definitions CRATE   the public definitions of a crate's specs/, each beside its sentence;
  arms FAMILY         a family's forms: command, name, lines of 000, and where the code of the arm stands;
  helpers             the other definitions of layouts, with what they are in 000.
The sentences are those of docs/definitions.tsv: crate, definitions, sentence, and of helpers the lines of 000. The first
definition of a file is given as File.name, those behind it by their names; File.* is what no other line of the file has.
Definitions that no line has get a line at the end of their crate's table. The names, order and commands of forms are
those of crates/reader/specs, lines of arms those of 000's `match`, and the code is found by the `match` that has a case
for each form of the family, so that nothing here goes by line numbers of this repository.
With --check nothing is written: the exit status says whether the page is what the sources give.
"""
import collections
import glob
import os
import re
import sys

PAGE = "docs/ARCHITECTURE.md"
SENTENCES = "docs/definitions.tsv"
ORIGINAL = "reference/crates/sml-naive-fmt/src/lib.rs"
# The families, and the forms' data type of each.
FAMILIES = {"DecOne": "DecForm", "StrExp": "StrExpForm", "SigExp": "SigExpForm", "Exp": "ExpForm", "Pat": "PatForm", "Ty": "TyForm"}
# An arm whose code calls one of these crates' functions alone has no function of its own.
BELOW = {"layout", "reader", "text", "comments"}
# The crates of the walk above these.
WALK = {"types", "patterns", "leaves", "walk"}
MARK = re.compile(r"(<!-- tables: (.*?) -->\n).*?(<!-- end -->)", re.S)

Row = collections.namedtuple("Row", "crate names sentence lines")


def read(path):
    with open(path, encoding="utf-8") as file:
        return file.read()


def stop(problem):
    raise SystemExit("tables: " + problem)


# ---- definitions


def public(text):
    """The public definitions of a file of specs/, and the constructors and fields that a line may name too."""
    names, others, block = [], set(), None
    for line in text.split("\n"):
        indent = len(line) - len(line.lstrip())
        if block is not None and line.strip() and indent <= block[0]:
            block = None
        found = re.match(r"\s*(?:unfoldable |abbrev )?pub (?:(data|record) )?(\S+)", line)
        if block is not None:
            parts = re.match(r"\s*(?:pub )?(\S[^:]*?)\s+:", line)
            others.update(parts.group(1).split() if parts and not line.lstrip().startswith("--") else [])
        elif found and found.group(2) not in ("mod", "use"):
            names.append(found.group(2))
            block = (indent,) if found.group(1) else None
    return names, others


def specs(crate):
    """The definitions of a crate: {file: (names, constructors and fields)}; a file of specs/Promises is Promises/File."""
    folder = "crates/%s/specs/" % crate
    paths = sorted(glob.glob(folder + "**/*.antt", recursive=True))
    files = {path[len(folder):-5]: public(read(path)) for path in paths}
    return {file: found for file, found in files.items() if found[0]}


def crates():
    return [crate for crate in re.findall(r"^(\w+)(?: staticlib)?:", read("crates.txt"), re.M) if specs(crate)]


def placed(names):
    """[(file, name)] of a line's definitions."""
    file, result = None, []
    for name in names.split():
        head, dot, tail = name.partition(".")
        file, name = (head, tail) if dot and head and tail else (file, name)
        result.append((file, name))
    return result


def rows():
    lines = [line.split("\t") for line in read(SENTENCES).split("\n")[1:] if line]
    return [Row(*(line + [""] * (4 - len(line)))) for line in lines]


def named(crate):
    """The lines of a crate with their definitions, each of which is there and has one line; what is left over."""
    files, mine, result = specs(crate), [row for row in rows() if row.crate == crate], []
    where = collections.Counter()
    for row in mine:
        for file, name in placed(row.names):
            if file not in files or (name != "*" and name not in files[file][0] and name not in files[file][1]):
                stop("%s: %s has no definition %s.%s" % (SENTENCES, crate, file, name))
            where[file, name] += 1
    twice = [one for one, count in where.items() if count > 1]
    if twice:
        stop("%s: twice: %s" % (SENTENCES, ", ".join("%s.%s" % one for one in twice)))
    left = {file: [name for name in names if not where[file, name]] for file, (names, _) in files.items()}
    for row in mine:
        result.append((row, [(file, left.pop(file, []) if name == "*" else name) for file, name in placed(row.names)]))
    return result, {file: names for file, names in left.items() if names}


def cell(names):
    """`File.a`, `b`, and `File`: `c`, `d` for what a line has of a file by `*`."""
    shown, last = [], None
    for file, name in names:
        if isinstance(name, list):
            shown.append("`%s`: %s" % (file, ", ".join("`%s`" % one for one in name)))
        else:
            shown.append("`%s`" % (name if file == last else "%s.%s" % (file, name)))
        last = file
    return ", ".join(shown)


def table(heads, lines):
    lines = [[part.replace("|", "\\|") for part in line] for line in lines]
    shown = ["| " + " | ".join(line) + " |" for line in lines]
    return "\n".join(["| " + " | ".join(heads) + " |", "|" + "---|" * len(heads)] + shown) + "\n"


def definitions(crate):
    if crate not in crates():
        stop("%s: no crate %s with definitions" % (PAGE, crate))
    lines, left = named(crate)
    shown = [(cell(names), row.sentence) for row, names in lines if not row.lines]
    shown += [(cell([(file, names)]), "(no sentence of its own)") for file, names in left.items()]
    return table(["definition", "sentence"], shown)


def helpers():
    lines, original = named("layout")[0], read(ORIGINAL).count("\n")
    for row, _ in lines:
        numbers = [int(number) for number in re.findall(r"\d+", row.lines)]
        if any(number > original for number in numbers):
            stop("%s: 000 has no line %d" % (SENTENCES, max(numbers)))
    shown = [(cell(names), row.sentence, row.lines) for row, names in lines if row.lines]
    return table(["definition", "000", "lines"], shown)


# ---- arms


def forms(family):
    """The forms of a family in order, with the command of the first."""
    data = re.search(r"^pub data %s : .* where\n((?:  .*\n)+)" % FAMILIES[family], read("crates/reader/specs/Forms.antt"), re.M)
    first = re.search(r"^first_form %s = (0x[0-9A-F]+)$" % family, read("crates/reader/specs/Fields.antt"), re.M)
    if not data or not first:
        stop("crates/reader/specs has no forms of %s" % family)
    return int(first.group(1), 16), [name for line in data.group(1).split("\n") for name in line.split(" : ")[0].split()]


def arm_lines(text, family, form):
    """The lines of a form's arm in 000: those of its function's `match`, to the closing bracket."""
    lines = text.split("\n")
    starts = [at for at, line in enumerate(lines) if re.match(r"    ast::%s::%s\(\w+\) => (?!true)" % (family, form), line)]
    starts = [at for at in starts if "body_exp_needs_newline)" not in lines[at]]
    if len(starts) != 1:
        stop("000 has %d arms of %s" % (len(starts), form))
    at = end = starts[0]
    if lines[at].rstrip()[-1] in "{(":
        end = next(k for k in range(at + 1, len(lines)) if re.match(r"    [})]", lines[k]))
    return "%d" % (at + 1) if at == end else "%d to %d" % (at + 1, end + 1)


def modules():
    """{(crate, module): text} of the Rattle sources."""
    found = {}
    for path in sorted(glob.glob("crates/*/src/**/*.rt", recursive=True)):
        _, crate, _, *inner = path[:-3].split("/")
        found[crate, "::".join(inner)] = re.sub(r"//[^\n]*", "", read(path))
    return found


def functions(text):
    """{name: body} of a source."""
    pieces = re.split(r"^(?:pub )?fn (\w+)", text, flags=re.M)
    return dict(zip(pieces[1::2], (piece.split("\n{\n", 1)[-1].split("\n}\n")[0] for piece in pieces[2::2])))


def cases(body, names):
    """What stands behind each case of the `match` that has one for each form, by number or by name; else none."""
    for piece in re.split(r"\bmatch\b", body)[1:]:
        found = re.findall(r"^\s+(?:\w+::)*(\w+)(?:\([^)]*\))? => (.*?)(?=^\s+(?:\w+::)*\w+(?:\([^)]*\))? => |^\s+\}\n|\Z)", piece + "\n", re.M | re.S)
        known = [(case, code) for case, code in found if case != "_"]
        for keys in ([str(number) for number in range(len(names))], names):
            if [case for case, _ in known] == list(keys):
                return [code for _, code in known]
    return None


def shown(crate, module, function):
    inner = "" if module in ("lib", "main") else module + "::"
    return "`%s::%s%s`" % (crate, inner, function)


def used(text):
    """{name: path} of the names that a source takes from elsewhere, one by one or in braces."""
    paths = {}
    for head, names in re.findall(r"^use ([\w:]+?)(?:::\{([^}]*)\})?;", text, re.M):
        for name in [it.strip() for it in names.split(",") if it.strip()] or [""]:
            path = head + "::" + name if name else head
            paths[path.split("::")[-1]] = path
    return paths


def code_of(sources, crate, module, dispatch, code):
    """Where an arm's code stands: the first function of the walk that its case calls, or the one that dispatches."""
    uses = used(sources[crate, module])
    for name in re.findall(r"\b([a-z]\w*)\(", code):
        path = uses.get(name, "")
        owner, *inner = path.split("::")[:-1] or [crate, module]
        owned = functions(sources.get((owner, "::".join(inner) or "lib"), ""))
        if owner not in BELOW and name in owned:
            return shown(owner, "::".join(inner) or "lib", name)
    return "in " + shown(crate, module, dispatch)


def arm_code(family, names):
    """Where the code of each arm stands, by the one function of the walk's crates that goes by cases of the forms."""
    sources, found = modules(), []
    for (crate, module), text in sources.items():
        for function, body in functions(text).items() if crate in WALK else ():
            code = cases(body, names)
            if code:
                found.append([code_of(sources, crate, module, function, one) for one in code])
    if len(found) != 1:
        stop("%d functions have a `match` with a case for each form of %s, by number or by name" % (len(found), family))
    return found[0]


def arms(family):
    if family not in FAMILIES:
        stop("%s: no family %s" % (PAGE, family))
    first, names = forms(family)
    original, code = read(ORIGINAL), arm_code(family, names)
    lines = [("0x%02X" % (first + k), "`%s`" % name, arm_lines(original, family, name), code[k]) for k, name in enumerate(names)]
    return table(["command", "form and definition", "lines of 000", "code"], lines)


# ---- the page


def made(name):
    kind, _, what = name.partition(" ")
    makers = {"definitions": definitions, "arms": arms}
    if name == "helpers":
        return helpers()
    if kind not in makers:
        stop("%s: no table '%s'" % (PAGE, name))
    return makers[kind](what)


def page(text):
    """The page with its tables made anew."""
    names = [found.group(2) for found in MARK.finditer(text)]
    wanted = ["definitions " + crate for crate in crates()] + ["arms " + family for family in FAMILIES] + ["helpers"]
    if sorted(names) != sorted(wanted):
        stop("%s: tables missing: %s; not known: %s" % (PAGE, sorted(set(wanted) - set(names)), sorted(set(names) - set(wanted))))
    known = set(crates())
    strange = [row.crate for row in rows() if row.crate not in known]
    if strange:
        stop("%s: no crate %s" % (SENTENCES, strange[0]))
    return MARK.sub(lambda found: found.group(1) + made(found.group(2)) + found.group(3), text)


def main(arguments):
    if not os.path.exists(SENTENCES):
        stop("run it from the repository's root")
    old = read(PAGE)
    new = page(old)
    if arguments == ["--check"]:
        if old != new:
            stop("%s is not what the sources give; run python3 tools/tables.py" % PAGE)
    elif arguments:
        raise SystemExit(__doc__)
    else:
        with open(PAGE, "w", encoding="utf-8") as out:
            out.write(new)


if __name__ == "__main__":
    main(sys.argv[1:])
