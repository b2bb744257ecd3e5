#!/usr/bin/env python3
"""The grey of a state at a top, by exact arithmetic: a table of rows `wide TOP STATE SWING GREY` for test_glass.

    tests/greys.py [ROWS [SEED]]    prints a table: every state of the smallest swings, then so many random ones
    tests/greys.py --stored         compares the last table of crates/test_glass/stdin with the one that no words give

A full swing is the drive from black to white; a top of 0 stands for 255.
"""
import random
import sys

TOPS = (0, 1, 2, 254, 255, 256, 65534, 65535)
STORED = "crates/test_glass/stdin"


def grey(top, state, swing):
    """state * top / swing to the nearest, halves up, and at most the top."""
    top = top or 255
    return min((2 * state * top + swing) // (2 * swing), top)


def halves(top, swing):
    """A state next to the middle of two greys, if the top has two."""
    q = random.randrange(top or 255)
    middle = (2 * q + 1) * swing // (2 * (top or 255))
    return max(0, middle + random.choice((-1, 0, 1)))


def cases(rows):
    for swing in range(1, 11):
        for state in range(swing + 2):
            for top in TOPS:
                yield top, state, swing
    for _ in range(rows):
        top = random.choice(TOPS + (random.randrange(1, 65536),))
        bits = random.randrange(1, 64)
        swing = min(random.choice((1 << bits, (1 << bits) - 1, random.getrandbits(bits) + 1)), 2**63 - 1)
        state = random.choice((random.randrange(swing + 1), halves(top, swing), halves(top, swing), swing))
        yield top, min(state, 2**63 - 1), swing


def table(rows=2500, seed=3):
    random.seed(seed)
    found = [f"wide {top} {state} {swing} {grey(top, state, swing)}" for top, state, swing in cases(rows)]
    return "\n".join([f"{len(found)} rows: wide TOP STATE SWING GREY", *found]) + "\n"


def main(words):
    if words == ["--stored"]:
        if not open(STORED, encoding="ascii").read().endswith("\n" + table()):
            sys.exit(f"{STORED} does not end with this table")
        return
    sys.stdout.write(table(*map(int, words)))


main(sys.argv[1:])
