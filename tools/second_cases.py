"""Cases of Page and Values for the program probe, answered by the second solver.

The first page of each of document 01's pairs (examples/worked.txt) is asked for. A list that it holds whole, and each of
the published ones, is walked to its end in pages of an odd size, each after the last key of the one before. The values of
the first keys of each page are asked for. The same is asked of patterns and subjects in matching (document 02, R-4), a text that
begins with `match`, and of pairs in sums with an identity (R-10), a text that begins with `identity`.
"""
import struct
import subprocess
from pathlib import Path

from library import flattened, term, texts
from protocol import IDENTITY_PAGE, IDENTITY_VALUES, MATCH_PAGE, MATCH_VALUES, PAGE, VALUES, Case, question

WORKED = Path(__file__).resolve().parent.parent / "examples" / "worked.txt"

# the questions Page and Values that a text's first word asks; any other word is the left side's
WAYS = {"match": (MATCH_PAGE, MATCH_VALUES), "identity": (IDENTITY_PAGE, IDENTITY_VALUES)}

# source document 002, B.2: 204, 60, 228 and 6006 unifiers, each with the size of the pages it is walked in; the pair with 7
# is document 01's pair 2
PUBLISHED = [
    ("v0+v1+c0 = v2+v3+v4+c1", 31),
    ("2v0+c0 = v1+v2+c1+c2", 7),
    ("2v0+v1 = v2+v3+c0+c1", 13),
    ("3v0 = v1+v2+v3+c0", 199),
]

# the highest key is on this pair's list
HIGHEST, HIGHEST_KEY = "7v3+7c0+7c1+7c2+7c3 = 8v0+8v1+3v2", 4294967295

# the first key of this pair stands behind 49,666 other candidates (document 02, R-8)
LATE = "v0+v1+4v2+8v4+c0 = v0+v1+v3+v5"

# v4 has a value of 135 atoms, the longest there is (document 02, R-9)
LONG_VALUE, LONG_VALUE_KEY = "4v4 = 8v0+7v1+7v2+7v3+7c0+7c1+7c2+7c3", 65535

# document 02, R-4: patterns with their subjects, worked by hand or refused
MATCHED = [
    "match v0+v1 = 2v32+v33",  # four
    "match v0+c0 = v33+c0",  # one
    "match v0+v1+v2 = 4v7",  # three
    "match v0+v1+v2 = 5v7",  # 12
    "match 2v0 = c0+c1",  # 13
    "match c0+c1+c2 = v0+v1+v2",  # 11
    "match v0+c0 = v0+c1",  # 19
    "match v0+c0 = v0+c0",  # 19, though the net count is 0
    "match v0 = 9v7",  # 10 with v7
    "match v0+v1+v2+v3+v4+v5+v6 = v7",  # 9
    "match v40+v41 = v0+v1+c0",  # six
    "match c0 = c0",  # one, without variables
    "match v0+v1+v2 = 4v32+4v33+c0",  # 528, more than two pages
]

# document 02, R-10: pairs in sums with an identity, worked by hand or refused
WITH_IDENTITY = [
    "identity v0+v1 = v2+v3",  # one
    "identity c0+c1+c2 = v0+v1+v2",  # 27
    "identity v0 = nothing",  # one, v0 empty
    "identity nothing = nothing",  # one, without variables
    "identity nothing = v0+v1",  # one, both empty
    "identity c0 = nothing",  # 13
    "identity v0+v1 = c0",  # two
    "identity 2v0+c0 = v1+v2+c1",  # four
    "identity v0 = v0+v1",  # one, v1 empty
    "identity 2v0 = c0",  # 13
    "identity 65v0 = nothing",  # 7
    "identity nothing = 9v39",  # 10 with v39
    "identity nothing = c0+c1+c2+c3+c4",  # 11
    "identity v0+v1+v2 = 4c0+4c1",  # 225, more than a page
    "identity 4v4 = 8v0+7v1+7v2+7v3+7c0+7c1+7c2+7c3",  # long values
]

# 36 matches, with seven variables on both sides together, and the size of the pages they are walked in
LONG_MATCH, LONG_MATCH_SIZE = "match v0+v1+v2 = v32+v33+v34+v35", 7


def kinds(text):
    """The questions Page and Values that a text asks."""
    return WAYS.get(text.split()[0], (PAGE, VALUES))


def sides(text):
    """The atoms of the two sides of a text, `nothing` for a side without; any variable may stand on either."""
    words = [word for word in text.split() if word not in WAYS]
    return [b"" if side.strip() == "nothing" else flattened(term(side)) for side in " ".join(words).split("=")]


class Second:
    """The second solver, asked one question at a time; what was asked and answered is kept."""

    def __init__(self, program):
        self.program = program
        self.cases = []

    def ask(self, name, asked):
        """The answer to a question, kept as a case."""
        answer = subprocess.run([self.program, "probe"], input=asked, capture_output=True, check=True).stdout
        self.cases.append(Case(name, asked, answer))
        return answer

    def page(self, text, wanted, after=None):
        """The keys of a page, none if it is refused, and whether more follow. The buffer is as long as it must be."""
        begin = "from the start" if after is None else f"after {after}"
        asked = question(kinds(text)[0], *sides(text), wanted or 200, number=after or 0, after=after is not None, wanted=wanted)
        answer = self.ask(f"Page of {text}, {begin}, {wanted} wanted", asked)
        if answer[0]:
            return (), False
        written, more = struct.unpack(">2I", answer[1:9])
        return struct.unpack(f">{written}I", answer[25 : 25 + 4 * written]), more == 1

    def values(self, text, keys):
        """Asks for the values of each key."""
        for key in keys:
            self.ask(f"Values of {text}, key {key}", question(kinds(text)[1], *sides(text), 972, number=key))

    def walk(self, text, size, first):
        """Asks for the list in pages of this size up to the page after the last, and for the first values of each."""
        keys, _ = self.page(text, size)
        while keys:
            self.values(text, keys[:first])
            keys, _ = self.page(text, size, keys[-1])


def cases(program):
    """Every case, in order, answered by the second solver's program."""
    second = Second(program)
    for text in [*(text for _, text in texts(WORKED.open())), *MATCHED, *WITH_IDENTITY]:
        keys, more = second.page(text, 0)
        if more:
            second.values(text, keys[:3])
        elif keys:
            second.walk(text, 3, 3)
    for text, size in PUBLISHED:
        second.walk(text, size, 1)
    second.walk(LONG_MATCH, LONG_MATCH_SIZE, 1)
    for text in MATCHED[1], MATCHED[6], WITH_IDENTITY[0]:  # a key that is not listed, and 19 before 14
        second.page(text, 1, 1)
        second.values(text, [1])
    second.page(LATE, 1)
    second.values(LONG_VALUE, [LONG_VALUE_KEY])
    second.page(HIGHEST, 5, HIGHEST_KEY - 5)
    second.page(HIGHEST, 5, HIGHEST_KEY)
    second.values(HIGHEST, [HIGHEST_KEY])
    return second.cases
