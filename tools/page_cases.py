"""Cases of Page for the program probe, worked by hand: how many candidates are weighed (document 02, R-8), and sums with an
identity (R-10).

Pair 2 has the candidates 0 to 15. Pair 12 has four, for row 0 or 1 of each constant, and no mask but 0. With an identity each
candidate is listed.
"""
import struct

from protocol import IDENTITY_PAGE, MATCH_PAGE, PAGE, Case, buffer, given, question, refused
from rows_cases import side

PAIR_2, PAIR_12 = "v0+v1 = v2+v3", "v0+v1 = c0+c1"
KEYS_12 = [16777216, 268435456]

# the pair, the key after which the page begins, how many are wanted, the keys, whether more follow, how many are weighed
PAGES = [
    (PAIR_2, None, 3, [6, 7, 9], True, 10),
    (PAIR_2, 9, 2, [11, 13], True, 4),
    (PAIR_2, 13, 2, [14, 15], False, 2),
    (PAIR_2, None, 7, [6, 7, 9, 11, 13, 14, 15], False, 16),
    (PAIR_2, 6, 1, [7], True, 1),
    (PAIR_12, None, 1, KEYS_12[:1], True, 2),
    (PAIR_12, None, 5, KEYS_12, False, 3),
    (PAIR_12, KEYS_12[0], 1, KEYS_12[1:], False, 1),
    ("v0 = v0", None, 1, [1], False, 2),
    ("c0 = c0", None, 1, [0], False, 1),
]

# In matching: pair 12's constants are handed out in the same ways. Two of v32 and one of v33 are handed out in six, of which the
# first leaves v0 empty and the last v1.
MATCHES = [
    (PAIR_12, None, 1, KEYS_12[:1], True, 2),
    (PAIR_12, None, 5, KEYS_12, False, 3),
    ("v0+v1 = 2v32+v33", None, 1, [16777216], True, 2),
    ("v0+v1 = 2v32+v33", None, 9, [16777216, 268435456, 285212672, 536870912], False, 5),
    ("v0+v1 = 2v32+v33", 268435456, 2, [285212672, 536870912], False, 2),
]

# In sums with an identity: every balanced row is taken, and a variable and a side may be empty.
TWO, FOUR = "v0+v1 = c0", "2v0+c0 = v1+v2+c1"
WITH_IDENTITY = [
    (PAIR_2, None, 5, [15], False, 1),
    ("v0 = nothing", None, 1, [0], False, 1),
    ("nothing = nothing", None, 1, [0], False, 1),
    ("v0 = v0+v1", None, 1, [1], False, 1),
    (TWO, None, 1, [0], True, 1),
    (TWO, 0, 5, [268435456], False, 1),
    (FOUR, None, 9, [7, 16777223, 268435463, 285212679], False, 4),
    (FOUR, 16777223, 1, [268435463], True, 1),
]

# a refusal returns no count
REFUSED = [
    (PAGE, "2v0 = c0", None, 13),
    (PAGE, PAIR_2, 8, 14),
    (PAGE, PAIR_2, 15, 15),
    (PAGE, "v0 = nothing", None, 7),
    (IDENTITY_PAGE, "c0 = nothing", None, 13),
    (IDENTITY_PAGE, "2v0 = c0", None, 13),
    (IDENTITY_PAGE, PAIR_2, 7, 14),
    (IDENTITY_PAGE, FOUR, 6, 14),
    (IDENTITY_PAGE, FOUR, 285212679, 15),
    (IDENTITY_PAGE, "65v0 = nothing", None, 7),
    (IDENTITY_PAGE, "nothing = 128", None, 8),
]


def asked(kind, text, after, wanted):
    """The question for a page; the buffer is one longer than it must be."""
    sides = map(side, text.split(" = "))
    return question(kind, *sides, wanted + 1, number=after or 0, after=after is not None, wanted=wanted)


def page(kind, text, after, wanted, keys, more, weighed):
    """A case of a page that is given."""
    written = buffer(4 * (wanted + 1), struct.pack(f">{len(keys)}I", *keys))
    returned = len(keys), more, *divmod(weighed, 2**32)
    return Case(f"Page of {text}, after {after}, {wanted} wanted", asked(kind, text, after, wanted), given(returned, written))


def cases():
    """Every case, in order."""
    yield from (page(PAGE, *worked) for worked in PAGES)
    yield from (page(MATCH_PAGE, *worked) for worked in MATCHES)
    yield from (page(IDENTITY_PAGE, *worked) for worked in WITH_IDENTITY)
    for kind, text, after, number in REFUSED:
        yield Case(f"Page of {text}, after {after}, refused", asked(kind, text, after, 1), refused(number, 8))
