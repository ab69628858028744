#!/usr/bin/env python3
"""Writes what the program division_test must print, or says whether it is current:

    tests/division_table.py [--check]

Each result is computed here with Python's unbounded integers: a signed number is a negative integer, its quotient is
truncated towards zero, its remainder what the quotient leaves; by zero SMT-LIB 2.6 has values of its own. An operand
counts modulo 2^w. The widths and operands are the program's."""
import pathlib
import sys

PATH = pathlib.Path(__file__).resolve().parent.parent / "crates/division_test/stdout"
NAMES = ["bvudiv", "bvurem", "bvsdiv", "bvsrem"]
ONES = 2**64 - 1


def integer(signed, w, x):
    """The number of a vector."""
    return x - 2**w if signed and x >= 2 ** (w - 1) else x


def truncated(a, b):
    """The quotient towards zero."""
    return abs(a) // abs(b) if (a < 0) == (b < 0) else -(abs(a) // abs(b))


def divided(name, w, s, t):
    """What an operation gives on vectors of a width."""
    a, b = (integer(name in ("bvsdiv", "bvsrem"), w, x % 2**w) for x in (s, t))
    remainder = name in ("bvurem", "bvsrem")
    if b == 0:
        found = a if remainder else 1 if a < 0 else -1
    else:
        found = a - b * truncated(a, b) if remainder else truncated(a, b)
    return found % 2**w


def edges(w):
    ones, least = 2**w - 1, 2 ** (w - 1)
    return [0, 1, 2, least - 1, least, least + 1, ones - 1, ones, 0x8123456789ABCDEF]


def row(name, w, s, results):
    return f"{name} {w} {s:x} = " + " ".join(f"{r:x}" for r in results) + "\n"


def rows(name):
    for w, operands in [(w, range(2**w)) for w in range(1, 5)] + [(w, edges(w)) for w in (1, 2, 17, 63, 64)]:
        for s in operands:
            yield row(name, w, s, (divided(name, w, s, t) for t in operands))
    for w in (0, 65):
        yield row(name, w, ONES, [0] * 9)


def main():
    text = "".join(line for name in NAMES for line in rows(name))
    if "--check" in sys.argv:
        assert PATH.read_text() == text, f"{PATH} is not current"
    else:
        PATH.write_text(text)


if __name__ == "__main__":
    main()
