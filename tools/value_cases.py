"""Cases of Values for the program probe, by hand: how long the lent buffer must be (document 02, R-9), and sums with an identity
(R-10).
"""
from protocol import IDENTITY_VALUES, MATCH_VALUES, VALUES, Case, buffer, given, question, refused
from rows_cases import side

# the question, the pair, the key, and for each variable its byte, a byte count and the atoms
GIVEN = [
    (VALUES, "v0 = v1+c0", 1, "00 02 40 C0 01 01 C0"),
    (MATCH_VALUES, "v0 = v32+c0", 0, "00 02 20 40"),
    (IDENTITY_VALUES, "v0 = nothing", 0, "00 00"),
]

LONG_ENOUGH = [972, 973, 1211, 1212]
TOO_SHORT = [0, 971]

# further values with an identity, in the shortest buffer
WITH_IDENTITY = [
    ("nothing = nothing", 0, ""),
    ("v0 = v0+v1", 1, "00 01 C0 01 00"),
    ("v0+v1 = c0", 0, "00 00 01 01 40"),
    ("v0+v1 = c0", 268435456, "00 01 40 01 00"),
    ("v0+v1 = v2+v3", 15, "00 02 C2 C3 01 02 C0 C1 02 02 C1 C3 03 02 C0 C2"),
]

# with an identity: the pair, the key and the number
REFUSED = [
    ("c0 = nothing", 0, 13),
    ("v0+v1 = v2+v3", 7, 14),
    ("v0 = nothing", 1, 14),
]


def case(kind, text, key, lent, answer):
    """A case of Values."""
    sides = [side(words) for words in text.split(" = ")]
    return Case(f"Values of {text}, key {key}, in {lent} bytes", question(kind, *sides, lent, number=key), answer)


def written(kind, text, key, lent, values):
    """A case of values that are given."""
    values = bytes.fromhex(values)
    return case(kind, text, key, lent, given([len(values)], buffer(lent, values)))


def cases():
    """Every case, in order."""
    for kind, text, key, values in GIVEN:
        yield from (written(kind, text, key, lent, values) for lent in LONG_ENOUGH)
        yield from (case(kind, text, key, lent, refused(16, lent)) for lent in TOO_SHORT)
    for text, key, values in WITH_IDENTITY:
        yield written(IDENTITY_VALUES, text, key, 972, values)
    for text, key, number in REFUSED:
        yield case(IDENTITY_VALUES, text, key, 972, refused(number, 972))
