"""Cases of Write for the program probe: blocks that document 01 or the request prints, those that tools/library.py makes, and
refusals by hand.
"""
from library import block, right_brackets
from protocol import WRITE, Case, buffer, given, question, refused

LENT = 512

# name, left side, right side, number, how the block begins and how it ends; zeros stand between
PRINTED = [
    ("block 0 of the example", "00 01", "40 41", 0, "00 00 03 03 80 00 01 80 40 41", "FE 77"),
    ("the highest variables and number", "1F", "3F", 65535, "FF FF 01 01 1F 1F", "FD C1"),
]

# name, left side, right side, number; the right side's variables are written 32 lower
MADE = [
    ("64 atoms on both sides", [0] * 64, [64] * 64, 7),
    ("every kind of atom", [0, 31, 64, 127], [127, 63, 32, 64, 32], 258),
    ("one atom on the left", [5], [37, 37, 70], 256),
]

# name, left side, right side, the buffer's length, the number given
REFUSED = [
    ("no atom on the left", [], [32], 512, 7),
    ("no atom on the right", [0], [], 512, 7),
    ("65 atoms on the left", [0] * 65, [32], 512, 7),
    ("65 atoms and a byte 128", [128] * 65, [32], 512, 7),
    ("byte 128 on the left", [128], [32], 512, 8),
    ("byte 128 on the right, and v32 on the left", [32], [128], 512, 8),
    ("v32 on the left", [32], [32], 512, 18),
    ("v63 on the left", [0, 63], [64], 512, 18),
    ("v31 on the right", [0], [31], 512, 18),
    ("v0 on the right", [64], [64, 0], 512, 18),
    ("a buffer of 511 bytes", [0], [32], 511, 16),
    ("a buffer of 511 bytes, and no atom", [], [], 511, 16),
    ("no buffer", [0], [32], 0, 16),
]


def lowered(right):
    """The right side's atoms as they are written."""
    return [atom - 32 if 32 <= atom < 64 else atom for atom in right]


def term(atoms):
    """Each atom added to all that follow it."""
    return right_brackets([bytes([atom]) for atom in atoms])


def printed(begins, ends):
    """A block by how it begins and ends."""
    begins, ends = bytes.fromhex(begins), bytes.fromhex(ends)
    return begins + bytes(LENT - len(begins) - len(ends)) + ends


def case(name, left, right, number, answer, lent=LENT):
    """A case of Write."""
    return Case(f"Write, {name}", question(WRITE, bytes(left), bytes(right), lent, number=number), answer)


def cases():
    """Every case, in order."""
    for name, left, right, number, begins, ends in PRINTED:
        sides = bytes.fromhex(left), bytes.fromhex(right)
        yield case(name, *sides, number, given([], printed(begins, ends)))
    for name, left, right, number in MADE:
        made = block(number, term(left), term(lowered(right)))
        yield case(name, left, right, number, given([], made))
        yield case(f"{name}, in 600 bytes", left, right, number, given([], buffer(600, made)), 600)
    for name, left, right, lent, number in REFUSED:
        yield case(name, left, right, 9, refused(number, lent), lent)
