#!/usr/bin/env python3
"""byte_table.py: writes docs/BYTES.md, the table of letters and digits as the course book shows it.

The entries are those of `CLASSES` in crates/text/src/lib.rt: `a` for an ASCII letter, `9` for an ASCII digit,
`-` for neither, one for each of the 256 bytes in order.

    python3 tools/byte_table.py            writes docs/BYTES.md
    python3 tools/byte_table.py --check    says whether docs/BYTES.md is what it would write
"""
import os
import re
import sys

SOURCE = "crates/text/src/lib.rt"
PAGE = "docs/BYTES.md"
HEAD = """# Bytes: letters, digits, neither

The table that every test for letters and digits reads: an entry for each of the 256 bytes, `a` an ASCII letter, `9` an
ASCII digit, `-` neither. The row gives the first hexadecimal digit of a byte, the column the second. `tools/byte_table.py`
writes this page from the table itself, `CLASSES` in `crates/text/src/lib.rt`; a test holds the two together. That each entry
is right is proved (`classes` in `crates/text`, over the whole table).
"""


def entries(source):
    """The 256 entries of the table in the source."""
    found = re.findall(r'const CLASSES: \[u8; 256\] =\s*\*b"([a9-]*)";', source)
    if len(found) != 1 or len(found[0]) != 256:
        raise SystemExit("byte_table: %s has no table CLASSES of 256 entries" % SOURCE)
    return found[0]


def page(table):
    """The page for a table: 16 rows of 16."""
    lines = [HEAD, "|   | " + " | ".join("%X" % column for column in range(16)) + " |", "|---" * 17 + "|"]
    for row in range(16):
        lines.append("| **%X** | " % row + " | ".join("`%s`" % entry for entry in table[16 * row:16 * row + 16]) + " |")
    return "\n".join(lines) + "\n"


def main(arguments):
    if not os.path.exists(SOURCE):
        raise SystemExit("byte_table: run it from the repository's root")
    text = page(entries(open(SOURCE).read()))
    if arguments == ["--check"]:
        if open(PAGE).read() != text:
            raise SystemExit("byte_table: %s is not what the table gives; run python3 tools/byte_table.py" % PAGE)
    elif arguments:
        raise SystemExit(__doc__)
    else:
        with open(PAGE, "w") as out:
            out.write(text)


if __name__ == "__main__":
    main(sys.argv[1:])
