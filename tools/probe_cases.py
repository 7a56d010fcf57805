#!/usr/bin/env python3
"""Make the stored questions and answers of the program probe, crates/probe/stdin and crates/probe/stdout.

    tools/probe_cases.py SECOND

Read is answered by a reader of blocks of its own (read_cases.py), Write by document 01 and by tools/library.py
(write_cases.py), Rows by hand (tests/rows.txt), Count by hand and by what is published (count_cases.py), Page by hand where few
candidates are weighed (page_cases.py), Values by hand in buffers of every kind (value_cases.py), else Page and Values by the second
solver, whose program SECOND is; nothing by the program under test.
"""
import sys
from pathlib import Path

import count_cases
import page_cases
import read_cases
import rows_cases
import second_cases
import value_cases
import write_cases

PROBE = Path(__file__).resolve().parent.parent / "crates" / "probe"
QUESTIONS, ANSWERS = PROBE / "stdin", PROBE / "stdout"


def cases(second):
    """Every case, in the order in which they are stored."""
    return [
        *read_cases.cases(),
        *rows_cases.cases(),
        *second_cases.cases(second),
        *write_cases.cases(),
        *count_cases.cases(),
        *page_cases.cases(),
        *value_cases.cases(),
    ]


def main():
    if len(sys.argv) != 2:
        sys.exit(__doc__)
    made = cases(sys.argv[1])
    QUESTIONS.write_bytes(b"".join(case.question for case in made))
    ANSWERS.write_bytes(b"".join(case.answer for case in made))


if __name__ == "__main__":
    main()
