"""Cases of Count for the program probe (document 02, R-7): numbers that are published or worked by hand, and refusals.

A text is a pair as in tests/rows.txt: a side without atoms is `nothing`, and a number in a side stands for that byte.
"""
from protocol import COUNT, Case, given, question, refused
from rows_cases import side

# source document 002, B.2
PUBLISHED = [
    ("v0+v1 = v2+v3", 7),
    ("v0+v1+c0 = v2+v3+v4+c1", 204),
    ("2v0+c0 = v1+v2+c1+c2", 60),
    ("2v0+v1 = v2+v3+c0+c1", 228),
    ("3v0 = v1+v2+v3+c0", 6006),
]

# document 01's pairs whose list it gives, and a pair with the longest list of all, found by trying every net count
LISTED = [
    ("v0 = v1+c0", 1),
    ("2v0 = v1+v2", 5),
    ("v0+c0 = v1+c1", 2),
    ("v0 = v0", 1),
    ("c0 = c0", 1),
    ("v0 = v0+v1", 0),
    ("v0+v1 = c0", 0),
    ("2v0 = c0", 0),
    ("v0+v1 = c0+c1", 2),
    ("4v0+v4 = v1+v2+v3+v4", 2**15 - 3 * 2**5 + 3 * 2 - 1),  # v4's row, and of 15 others those that reach v1, v2 and v3
    ("v0+v1+v2 = 4c0", 3),  # 2, 1 and 1 in three orders
    ("8v0 = v1", 1),
    ("v0 = c0+c1+c2+c3", 1),
    ("v0+v1+v2 = v3+v4+v5", 265),  # matrices of 0 and 1, three by three, in which no line and no column is all 0
    ("6v3+6c0+6c1+6c2+6c3 = 8v0+7v1+7v2", 4_294_651_782),
]

# each with its number; 10 has its atom, 0 stands for none
REFUSED = [
    ("nothing = v0", 7, 0),
    ("v0 = nothing", 7, 0),
    ("65v0 = v0", 7, 0),
    ("65v0 = 128", 7, 0),
    ("128 = v0", 8, 0),
    ("v0+v1+v2+v3 = v4+v5+v6+128", 8, 0),
    ("v0+v1+v2 = v3+v4+v5+v6", 9, 0),
    ("9v0+v1+v2+v3 = v4+v5+v6", 9, 0),
    ("v0 = 9v39", 10, 39),
    ("9v1 = c0+c1+c2+c3+c4", 10, 1),
    ("v0 = c0+c1+c2+c3+c4", 11, 0),
    ("v0+v1+v2 = 5c0+c1+c2+c3+c4", 11, 0),
    ("4v0+v4+v5 = v1+v2+v3+v4+v5", 12, 0),
    ("v0+v1+v2+c0 = 5c1", 12, 0),
]


def case(text, answer):
    """A case of Count; it is lent no buffer."""
    return Case(f"Count of {text}", question(COUNT, *map(side, text.split(" = ")), 0), answer)


def cases():
    """Every case, in order."""
    for text, number in PUBLISHED + LISTED:
        yield case(text, given(divmod(number, 2**32)))
    for text, number, atom in REFUSED:
        yield case(text, refused(number, atom=atom))
