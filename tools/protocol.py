"""Questions and answers of the program probe, in the bytes that second/PROTOCOL.md lays out."""
import struct
from typing import NamedTuple

READ, ROWS, PAGE, VALUES, WRITE = 1, 2, 3, 4, 5
MATCH_ROWS, MATCH_PAGE, MATCH_VALUES = 6, 7, 8
COUNT = 9
IDENTITY_ROWS, IDENTITY_PAGE, IDENTITY_VALUES = 10, 11, 12

# Every byte of a lent buffer before a question: no atom, no new variable and no number of a row.
FILL = b"\xa5"


class Case(NamedTuple):
    """A question and what must be answered, by name."""

    name: str
    question: bytes
    answer: bytes


def question(kind, first, second, first_lent, second_lent=0, number=0, after=False, wanted=0):
    """A question about a block (and nothing), or about two sides, with the lengths of the lent buffers."""
    lengths = len(first), len(second)
    header = struct.pack(">BcHHI?IxHH", kind, FILL, *lengths, number, after, wanted, first_lent, second_lent)
    return header + first + second


def buffer(lent, written=b""):
    """A lent buffer of so many bytes after a question that wrote these."""
    return written.ljust(lent, FILL)


def given(returned, *buffers):
    """The answer of a question that is not refused: what it returns and its buffers."""
    return struct.pack(">x6I", *returned, *[0] * (6 - len(returned))) + b"".join(buffers)


def refused(number, *lent, atom=0):
    """The answer of a question that is refused: its number, the atom that 10 names, and buffers of these lengths as they were."""
    return struct.pack(">BI20x", number, atom) + b"".join(map(buffer, lent))
