#!/usr/bin/env python3
"""Writes what the program bvmul_test must print, or says whether it is current:

    tests/bvmul_table.py [--check]

Each product is computed here with Python's unbounded integers, as SMT-LIB 2.6 has it: bv2nat(s) * bv2nat(t) modulo 2^w,
an operand counting modulo 2^w. Every width from 1 to 64, every pair of the operands, which are the program's."""
import pathlib
import sys

PATH = pathlib.Path(__file__).resolve().parent.parent / "crates/bvmul_test/stdout"


def operands(w):
    ones = 2**w - 1
    return [0, 1, 2 ** (w - 1) - 1, 2 ** (w - 1), ones, 0x8123456789ABCDEF, 0x4123456789ABCDEE, 2**64 - 1]


def row(w, s):
    return f"{w} {s:x} = " + " ".join(f"{(s % 2**w) * (t % 2**w) % 2**w:x}" for t in operands(w)) + "\n"


text = "".join(row(w, s) for w in range(1, 65) for s in operands(w))
if "--check" in sys.argv:
    assert PATH.read_text() == text, f"{PATH} is not current"
else:
    PATH.write_text(text)
