"""Cases of Rows for the program probe, from tests/rows.txt: worked by hand from document 01's definitions.

A case is a line `name: left = right`, or `match name: left = right` for Rows in matching (document 02, R-4), or `identity name: left
= right` for Rows with an identity (R-10), and below it, further in, the groups of rows, each behind its name (`balanced` or
the atom's), or `refused`, the number and the atom that it names. A row is a digit for each variable; a group without rows is `none`. The lent
buffer has 512 bytes, or as many as a line says that ends `in 480 bytes`. A side without atoms is `nothing`; a number in a
side stands for that byte.
"""
import re
from pathlib import Path

from library import atoms
from protocol import IDENTITY_ROWS, MATCH_ROWS, ROWS, Case, buffer, given, question, refused

TABLE = Path(__file__).resolve().parent.parent / "tests" / "rows.txt"
LENT = 512

# the question that a name's first word asks; any other word asks Rows
KINDS = {"match": MATCH_ROWS, "identity": IDENTITY_ROWS}


def worked(lines):
    """The line of each case, and the words below it."""
    found = []
    for line in lines:
        text = line.split("#")[0].rstrip()
        if text.startswith(" "):
            found[-1][1].extend(text.split())
        elif text:
            found.append((text, []))
    return found


def side(text):
    """The bytes of a side."""
    words = [] if text == "nothing" else text.split("+")
    return b"".join(bytes([int(word)]) if word.isdigit() else b"".join(atoms(word)) for word in words)


def answer(words, lent):
    """The sizes of the groups and the buffer with the rows in front, or the number."""
    if words[0] == "refused":
        return refused(int(words[1]), lent, atom=side(words[2])[0] if words[2:] else 0)
    groups = []
    for word in words:
        if word.isdigit():
            groups[-1].append(bytes(map(int, word)))
        elif word != "none":
            groups.append([])
    sizes = list(map(len, groups))
    return given([sizes[0], len(sizes) - 1, *sizes[1:]], buffer(lent, b"".join(sum(groups, []))))


def cases():
    """Every case of the table, in order."""
    for line, words in worked(TABLE.open()):
        name, left, right, lent = re.fullmatch(r"(.+): (\S+) = (\S+)(?: in (\d+) bytes)?", line).groups(LENT)
        kind = KINDS.get(name.split()[0], ROWS)
        yield Case(f"Rows, {name}", question(kind, side(left), side(right), int(lent)), answer(words, int(lent)))
