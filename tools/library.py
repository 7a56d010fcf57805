#!/usr/bin/env python3
"""Make a library of blocks (document 01, "A library block") from lines of pairs.

    tools/library.py <examples/small.txt >library

A line is a pair, as `v0+(v1+3c5) = c0+c1`: a block for each, numbered from 0. 3c5 is c5 three times. Brackets may group; without
them the rest of a sum is its right part. The two sides have separate variables, v0 to v31 each: answers call those of the right
side v32 to v63. The line `zeros` is a block of zeros. Empty lines and what follows # are passed over.
"""
import re
import signal
import sys

PLUS = 128
FIRST = {"v": 0, "c": 64}
MOST_ATOMS = 64


class Wrong(Exception):
    """Why a line is no pair."""


def atoms(word):
    """The atoms of a word such as v0 or 3c5, each as a term."""
    parts = re.fullmatch(r"([1-9][0-9]?)?([vc])([0-9]{1,2})", word)
    if not parts or int(parts[3]) > 63:
        raise Wrong(f"{word} is no atom; atoms are v0 to v31 and c0 to c63, and 3v0 is three of them")
    return [bytes([FIRST[parts[2]] + int(parts[3])])] * int(parts[1] or 1)


def right_brackets(terms):
    """The sum of the terms, with the rest of it as its right part."""
    return b"".join(bytes([PLUS]) + term for term in terms[:-1]) + terms[-1]


def left_brackets(terms):
    """The sum of the terms, with all but the last as its left part."""
    return bytes([PLUS] * (len(terms) - 1)) + b"".join(terms)


def term(text):
    """The bytes in front notation of a sum."""
    sums = [[]]  # the terms so far of each sum that is not at its end, the innermost last
    ended = False
    for word in re.findall(r"[+()]|[^\s+()]+", text):
        if ended != (word in "+)"):
            raise Wrong(f"{word} stands where {'a + must' if ended else 'an atom or a bracket must'}")
        ended = word not in "+("
        if word == "(":
            sums.append([])
        elif word == ")":
            if len(sums) == 1:
                raise Wrong("a bracket is closed that was not opened")
            inner = right_brackets(sums.pop())
            sums[-1].append(inner)
        elif word != "+":
            sums[-1] += atoms(word)
    if not ended:
        raise Wrong("a sum ends where an atom or a bracket must stand")
    if len(sums) > 1:
        raise Wrong("a bracket is not closed")
    return right_brackets(sums[0])


def flattened(made):
    """The atoms of a term, in order."""
    return bytes(byte for byte in made if byte != PLUS)


def side(name, text):
    """The term of a side, which a block can hold."""
    if not text.strip():
        raise Wrong(f"the {name} side is empty")
    made = term(text)
    if len(flattened(made)) > MOST_ATOMS:
        raise Wrong(f"the {name} side has {len(flattened(made))} atoms; a block holds at most {MOST_ATOMS}")
    for atom in flattened(made):
        if 31 < atom < 64:
            raise Wrong(f"v{atom} cannot be written, only v0 to v31; answers call the right side's v{atom - 32} so")
    return made


def pair(text):
    """The two terms of a line."""
    sides = text.split("=")
    if len(sides) != 2:
        raise Wrong(f"a pair has one =, and here are {len(sides) - 1}")
    return side("left", sides[0]), side("right", sides[1])


def texts(lines):
    """The lines that say something, each with its number and without its remark."""
    for number, line in enumerate(lines, 1):
        text = line.split("#")[0].strip()
        if text:
            yield number, text


def with_check(filled):
    """The 510 bytes and their check."""
    return filled + (65535 - sum(filled) % 65536).to_bytes(2, "big")


def block(number, left, right):
    """The 512 bytes of a block, from its number and its terms."""
    head = (number % 65536).to_bytes(2, "big") + bytes([len(left), len(right)]) + left + right
    return with_check(head.ljust(510, b"\0"))


def library(lines):
    """The blocks of the lines; a line that is wrong ends the program."""
    for place, (number, text) in enumerate(texts(lines)):
        try:
            yield bytes(512) if text == "zeros" else block(place, *pair(text))
        except Wrong as why:
            sys.exit(f"line {number}: {why}")


def main():
    if len(sys.argv) > 1:
        sys.exit(__doc__)
    signal.signal(signal.SIGPIPE, signal.SIG_DFL)
    sys.stdin.reconfigure(encoding="utf-8", errors="replace")
    sys.stdout.buffer.write(b"".join(library(sys.stdin)))


if __name__ == "__main__":
    main()
