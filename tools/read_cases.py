"""Cases of Read for the program probe: blocks, and what documents 01 and 02 (R-1) say of each.

The answers come from a reader of blocks of its own, written from these documents.
"""
from library import PLUS, block, left_brackets, right_brackets, with_check
from protocol import READ, Case, buffer, given, question, refused

EXAMPLE = block(0, bytes([PLUS, 0, 1]), bytes([PLUS, 64, 65]))


def changed(whole, place, byte):
    """The block with another byte at a place before the check, and the check of that."""
    return with_check(whole[:place] + bytes([byte]) + whole[place + 1 : 510])


def summing_to(total):
    """The example up to its check, with filler that brings the sum of the bytes to a total, where terms cannot."""
    full, rest = divmod(total - sum(EXAMPLE[:510]), 255)
    return (EXAMPLE[:10] + bytes([255] * full + [rest])).ljust(510, b"\0")


UP = [bytes([atom % 32]) for atom in range(64)]
DOWN = [bytes([atom]) for atom in range(127, 63, -1)]

# name, block, expected number, length of the left buffer and of the right one
ASKED = [
    ("example block 0", EXAMPLE, 0, 64, 64),
    ("example block 1", block(1, bytes([PLUS, 0, 0]), bytes([64])), 1, 64, 64),
    ("longer buffers", EXAMPLE, 0, 65, 255),
    ("the highest number", block(65535, bytes([5]), bytes([70])), 65535, 64, 64),
    ("127 bytes, brackets left", block(7, left_brackets(UP), left_brackets(DOWN)), 7, 64, 64),
    ("127 bytes, brackets right", block(7, right_brackets(UP), right_brackets(DOWN)), 7, 64, 64),
    ("127 bytes and one", block(7, right_brackets(UP), bytes([127])), 7, 64, 64),
    ("no block", b"", 0, 64, 64),
    ("511 bytes", EXAMPLE[:511], 0, 64, 64),
    ("513 bytes", EXAMPLE + b"\0", 0, 64, 64),
    ("zeros", bytes(512), 0, 64, 64),
    ("check one more", EXAMPLE[:511] + bytes([EXAMPLE[511] + 1]), 0, 64, 64),
    ("filler against the check", EXAMPLE[:509] + b"\1" + EXAMPLE[510:], 0, 64, 64),
    ("sum of 65,536 with the check of 65,535", summing_to(65536) + b"\0\0", 0, 64, 64),
    ("check and number wrong", EXAMPLE[:511] + b"\0", 1, 64, 64),
    ("another number", EXAMPLE, 1, 64, 64),
    ("number and length wrong", changed(EXAMPLE, 2, 0), 1, 64, 64),
    ("left length 0", changed(EXAMPLE, 2, 0), 0, 64, 64),
    ("right length 0", changed(EXAMPLE, 3, 0), 0, 64, 64),
    ("left length 128", block(0, bytes([PLUS]) + right_brackets(UP), bytes([64])), 0, 64, 64),
    ("right length 255", changed(EXAMPLE, 3, 255), 0, 64, 64),
    ("left term ends early", block(0, bytes([PLUS, 0]), bytes([64])), 0, 64, 64),
    ("right term ends early", block(0, bytes([0]), bytes([PLUS, PLUS, 64, 65])), 0, 64, 64),
    ("left term has bytes left over", block(0, bytes([0, 1, 2]), bytes([64])), 0, 64, 64),
    ("right term has bytes left over", block(0, bytes([0]), bytes([PLUS, 64, 65, 66])), 0, 64, 64),
    ("byte 129 on the left", block(0, bytes([PLUS, 0, 129]), bytes([64])), 0, 64, 64),
    ("byte 255 on the right", block(0, bytes([0]), bytes([255])), 0, 64, 64),
    ("one variable on both sides", block(0, bytes([PLUS, 3, 64]), bytes([PLUS, 3, 65])), 0, 64, 64),
    ("the highest variable and all constants between", block(0, bytes([31]), right_brackets([bytes([31]), *DOWN[1:]])), 0, 64, 64),
    ("byte 32 on the left", block(0, bytes([PLUS, 0, 32]), bytes([64])), 0, 64, 64),
    ("byte 63 on the left", block(0, bytes([63]), bytes([64])), 0, 64, 64),
    ("byte 32 on the right", block(0, bytes([0]), bytes([32])), 0, 64, 64),
    ("byte 63 on the right", block(0, bytes([0]), bytes([PLUS, 63, 64])), 0, 64, 64),
    ("byte 32 and filler wrong", changed(block(0, bytes([0]), bytes([32])), 509, 1), 0, 64, 64),
    ("byte 32 as filler", changed(EXAMPLE, 10, 32), 0, 64, 64),
    ("term and filler wrong", changed(block(0, bytes([0]), bytes([129])), 509, 1), 0, 64, 64),
    ("first filler byte", changed(EXAMPLE, 10, 1), 0, 64, 64),
    ("last filler byte", changed(EXAMPLE, 509, 128), 0, 64, 64),
    ("sum of 65,535", summing_to(65535) + b"\0\0", 0, 64, 64),
    ("sum of 65,536", summing_to(65536) + b"\xff\xff", 0, 64, 64),
    ("sum of 127,000", with_check(summing_to(127000)), 0, 64, 64),
    ("short left buffer", EXAMPLE, 0, 63, 64),
    ("short right buffer", EXAMPLE, 0, 64, 63),
    ("short buffer and no block", b"", 1, 0, 0),
]


def term(written):
    """The atoms of the bytes as one term, or None."""
    atoms, wanted = [], 1
    for place, byte in enumerate(written):
        if 32 <= byte < 64 or byte > PLUS:
            return None
        if byte == PLUS:
            wanted += 1
        else:
            atoms.append(byte)
            wanted -= 1
        if wanted == 0:
            return atoms if place + 1 == len(written) else None
    return None


def renamed(atoms):
    """The right term's atoms, each variable with the number 32 higher."""
    return [atom + 32 if atom < 64 else atom for atom in atoms]


def read(whole, number, left_length, right_length):
    """A number of the table, or the two sides."""
    if min(left_length, right_length) < 64:
        return 16
    if len(whole) != 512:
        return 1
    if int.from_bytes(whole[510:], "big") != 65535 - sum(whole[:510]) % 65536:
        return 2
    if int.from_bytes(whole[:2], "big") != number:
        return 3
    left_end = 4 + whole[2]
    right_end = left_end + whole[3]
    if not (1 <= whole[2] <= 127 and 1 <= whole[3] <= 127):
        return 4
    sides = term(whole[4:left_end]), term(whole[left_end:right_end])
    if None in sides:
        return 5
    if any(whole[right_end:510]):
        return 6
    left, right = sides
    return left, renamed(right)


def answer(whole, number, *lent):
    """The lengths of the sides and the buffers with the sides in front, or the number."""
    outcome = read(whole, number, *lent)
    if isinstance(outcome, int):
        return refused(outcome, *lent)
    return given(list(map(len, outcome)), *map(buffer, lent, map(bytes, outcome)))


def cases():
    """Every case, in order."""
    for name, whole, number, *lent in ASKED:
        yield Case(f"Read, {name}", question(READ, whole, b"", *lent, number=number), answer(whole, number, *lent))
