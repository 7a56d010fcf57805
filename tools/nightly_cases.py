#!/usr/bin/env python3
"""Make what tests/nightly runs: the libraries in tests/libraries, and what the nightly program, `matches` and `census` must
print of them and of the examples.

    tools/nightly_cases.py SECOND

SECOND is the second solver's program; it prints, the proved programs do not.
"""
import subprocess
import sys
from pathlib import Path

from library import block, left_brackets, library, pair, right_brackets

ROOT = Path(__file__).resolve().parent.parent
EXAMPLES = sorted((ROOT / "examples").glob("*.txt"))
LIBRARIES = ROOT / "tests" / "libraries"

# the programs, and the ending of the file with what each must print of a library
PROGRAMS = {"nightly": ".out", "matches": ".matches", "census": ".census"}

# 204 unifiers (source document 002, B.2), more than a page
LONG = "v0+v1+c0 = v2+v3+v4+c1"

# the longest list of all, more than 4,000 million; twice it is more than 32 bits hold
LONGEST = "6v3+6c0+6c1+6c2+6c3 = 8v0+7v1+7v2"


def damaged(place, whole):
    """The block with a byte changed, at another place in each."""
    at = 37 * place % 512
    return whole[:at] + bytes([whole[at] ^ 1]) + whole[at + 1 :]


def nested(first):
    """64 atoms, the most that brackets can hold."""
    return [bytes([atom]) for atom in [first] + [0] * 7 + [70] * 56]


def cases():
    """The libraries by name."""
    worked = list(library((ROOT / "examples" / "worked.txt").open()))
    worked.append(block(len(worked), *pair(LONG)))
    yield "empty", b""
    yield "short", worked[0][:100]
    yield "every_kind", b"".join(worked) + bytes(512) + worked[1][:511]
    yield "damaged", b"".join(whole if i % 2 else damaged(i, whole) for i, whole in enumerate(worked))
    one, other = nested(0), nested(1)
    yield "brackets", block(0, left_brackets(one), right_brackets(other)) + block(1, right_brackets(one), left_brackets(other))
    yield "no_variables", b"".join(library(["c0 = c0", "c0+c1 = c1+c0", "c0 = c1"]))
    yield "counts", b"".join(library([LONG, LONGEST, "2v0 = c0", "v0 = 9v7", "zeros", LONGEST, "v0+v1 = v2+v3"]))


def store(second, made, beside):
    """What the second solver prints of a library for each of the programs, beside the library's own file."""
    for program, ending in PROGRAMS.items():
        text = subprocess.run([second, program], input=made, capture_output=True, check=True).stdout
        beside.with_suffix(ending).write_bytes(text)


def main():
    if len(sys.argv) != 2:
        sys.exit(__doc__)
    for name, made in cases():
        path = LIBRARIES / f"{name}.lib"
        path.write_bytes(made)
        store(sys.argv[1], made, path)
    for example in EXAMPLES:
        store(sys.argv[1], b"".join(library(example.open())), example)


main()
