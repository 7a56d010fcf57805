"""Feeds a file through a pipe in pieces, so that each read of the reader comes short.

    python3 tests/pieces.py SIZE FILE | READER

A piece has SIZE bytes, or where SIZE is `random` some number from 1 to 1,200, the same ones at each run. A piece is
written once the reader has taken the one before.
"""
import fcntl
import os
import random
import select
import sys
import termios
import time

PIPE = sys.stdout.fileno()
LARGEST = 1200


def waiting():
    """How many bytes the reader has not taken yet; 0 where it has ended, so that the next piece cannot be written."""
    watch = select.poll()
    watch.register(PIPE, 0)
    if watch.poll(0):
        return 0
    return int.from_bytes(fcntl.ioctl(PIPE, termios.FIONREAD, bytes(4)), sys.byteorder)


def sizes(word):
    """The sizes of the pieces, without end."""
    drawn = random.Random(1)
    while True:
        yield drawn.randint(1, LARGEST) if word == "random" else int(word)


def main():
    word, path = sys.argv[1:]
    rest = open(path, "rb").read()
    for size in sizes(word):
        if not rest:
            break
        os.write(PIPE, rest[:size])
        rest = rest[size:]
        while waiting():
            time.sleep(0.00001)


main()
