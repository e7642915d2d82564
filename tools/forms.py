#!/usr/bin/env python3
"""forms.py [POINT] [--list]: counts, in crates/*/src, the places that docs/DESIGN-PASS.md speaks of; --list shows them.

enums       enums of the repository's own
structs     structs of the repository's own
sentinels   functions that answer a number where one of its values says that there is none, or a number for a refusal
twins       groups of functions of one shape: equal but for names of functions and types, constants and numbers
loops       loops by `while` and `loop`
steps       lines that count an index by hand: `i += 1` and the like
prints      comparisons, copies and conversions written as functions: same, larger, greater, copy, .._of with one match
clauses     `requires` clauses that three functions or more have
together    groups of three parameters or more, by name and type, that three functions or more take in this order
arrays      parameters and fields that are arrays or slices of numbers with a length beside them
switches    matches on a parameter that is an enum without fields
"""
import collections
import glob
import re
import sys

FUNCTION = re.compile(r"^ *(?:pub )?(?:extern \"C\" )?(?:const )?fn (\w+)(?:<(?:[^<>]|->)*>)?\((.*?)\)(?: -> ([^{]*?))?(?=\n? *(?:requires|ensures|\{|where))", re.M | re.S)
NONE = re.compile(r"\bnone\b|no \w+ (?:does|begins|stands)|where it has none|else (?:a stop|0)|0 where|itself where|a stop", re.I)


def sources():
    for path in sorted(glob.glob("crates/*/src/**/*.rt", recursive=True)):
        with open(path, encoding="utf-8") as file:
            yield path, file.read()


def functions():
    """(path, line, name, parameters, result, comment above, clauses and body) of each function."""
    for path, text in sources():
        found = list(FUNCTION.finditer(text))
        for at, match in enumerate(found):
            end = found[at + 1].start() if at + 1 < len(found) else len(text)
            above = re.search(r"((?: *//[^\n]*\n)*)(?: *#\[[^\n]*\n)*$", text[: match.start()])
            parameters = [" ".join(p.split()) for p in re.split(r",\s*(?![^\[(<]*[\])>])", match.group(2)) if p.strip()]
            yield path, text.count("\n", 0, match.start()) + 1, match.group(1), parameters, (match.group(3) or "").strip(), above.group(1), text[match.end() : end]


def lines(pattern):
    """The lines that a pattern finds, but for comments."""
    for path, text in sources():
        for at, line in enumerate(text.splitlines(), 1):
            if not line.lstrip().startswith("//") and re.search(pattern, line):
                yield f"{path}:{at}: {line.strip()}"


def sentinels():
    for path, line, name, _, result, above, _ in functions():
        if result in ("u8", "u16", "u32", "u64", "usize") and NONE.search(above):
            yield f"{path}:{line}: {name}"
        elif result == "usize" and re.search(r"/(layout|types|patterns|leaves|walk)/", path) and name not in ("len_of", "start_of"):
            yield f"{path}:{line}: {name}"


def clauses():
    where = collections.defaultdict(list)
    for path, line, name, _, _, _, rest in functions():
        for clause in dict.fromkeys(re.findall(r"requires(?: \w+)? \{ (.*?) \}\n", rest)):
            where[clause].append(f"{path}:{line} {name}")
    for clause, places in sorted(where.items(), key=lambda item: -len(item[1])):
        if len(places) >= 3:
            yield f"{len(places)} functions: {clause}"


def together():
    where = collections.defaultdict(set)
    for path, line, name, parameters, _, _, _ in functions():
        parameters = [re.sub(r"'\w+ ", "", p) for p in parameters]
        for start in range(len(parameters)):
            for end in range(start + 3, len(parameters) + 1):
                where[tuple(parameters[start:end])].add((path, line, name))
    kept = {group: who for group, who in where.items() if len(who) >= 3}
    for group, who in sorted(kept.items(), key=lambda item: -len(item[1])):
        if not any(len(other) > len(group) and kept[other] == who and " ".join(group) in " ".join(other) for other in kept):
            yield f"{len(who)} functions: {', '.join(group)}"


def twins():
    """Functions of eight words or more in the body that are equal but for names of functions and types, constants and numbers."""
    where = collections.defaultdict(list)
    for path, line, name, parameters, result, _, rest in functions():
        body = re.split(r"\n *(?:#\[|//|\})[^\n]*\n\n|\n\n(?=//|#|pub|fn|const|impl)", rest)[0]
        body = re.sub(r"(?:requires|ensures)(?: \w+)? \{.*?\}\n|//[^\n]*", "", body, flags=re.S)
        words = re.findall(r"b?\"(?:[^\"\\\\]|\\\\.)*\"|b?'(?:[^'\\\\]|\\\\.)'|\w+|[^\w\s]", body)
        shape = " ".join("K" if re.match(r"b?[\"']|\d|[A-Z]", w) else "f" if following == "(" and re.match(r"[a-z_]\w+$", w) else w for w, following in zip(words, words[1:] + [""]))
        if len(words) > 8:
            where[(re.sub(r"\b[A-Z]\w*|\d+", "K", ", ".join(parameters)), re.sub(r"\d+", "K", result), shape)].append(f"{path}:{line} {name}")
    for who in sorted(where.values(), key=lambda who: -len(who)):
        if len(who) >= 2:
            yield f"{len(who)} functions: {', '.join(who)}"


def switches():
    plain = {name for _, text in sources() for name, body in re.findall(r"enum (\w+) \{(.*?)\n\}", text, re.S) if not re.search(r"[({]", re.sub(r"//[^\n]*", "", body))}
    for path, line, name, parameters, _, _, _ in functions():
        for parameter in parameters:
            if re.search(r": (?:\w+::)*(\w+)$", parameter) and parameter.split(":")[-1].strip() in plain:
                yield f"{path}:{line}: {name}({parameter})"


POINTS = {
    "enums": lambda: lines(r"^(pub )?enum \w"),
    "structs": lambda: lines(r"^(pub )?struct \w"),
    "sentinels": sentinels,
    "twins": twins,
    "loops": lambda: lines(r"^\s*(while\b|loop\b)"),
    "steps": lambda: lines(r"^\s*\w+ [+-]= \w+;$"),
    "prints": lambda: lines(r"\bfn (same|larger|greater|excess|copy|eight|four|pair|whole|is_passed|numbers_of|put_\w+|wide|cleared)\("),
    "clauses": clauses,
    "together": together,
    "arrays": lambda: lines(r"(kinds|spans|starts|lens|mem|words): (&(mut )?)?\[\w+(; \w+)?\]"),
    "switches": switches,
}


def main(words):
    for point in [word for word in words if word in POINTS] or POINTS:
        places = list(POINTS[point]())
        print(f"{point}: {len(places)}")
        if "--list" in words:
            print("".join(f"    {place}\n" for place in places), end="")


if __name__ == "__main__":
    main(sys.argv[1:])
