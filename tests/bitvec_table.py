#!/usr/bin/env python3
"""Writes what the program bitvec_test must print: tests/bitvec_table.py > crates/bitvec_test/stdout

Each result is computed here with Python's unbounded integers, from SMT-LIB 2.6's definitions (theory FixedSizeBitVectors,
logic QF_BV), signed values as integers; nothing of the Rattle code is used. The widths and operands are the program's.
"""

ONES = 2**64 - 1
A = 0x8123456789ABCDEF  # negative at width 64, not at 63
B = 0x4123456789ABCDEE  # negative at width 63, not at 64
WIDTHS = [1, 63, 64]
NO_WIDTHS = [0, 65, 2**32 - 1]
PAIRS = [
    (0, 0), (ONES, 1), (1, ONES), (ONES, ONES), (0, ONES),
    (2**63, 2**63 - 1), (2**63 - 1, 2**63), (2**62, 2**62 - 1), (2**62, 2**62), (2**63, 2**62),
    (A, B), (B, A), (2**32 - 1, 2**32 + 1),
    (A, 0), (A, 1), (A, 62), (A, 63), (A, 64), (A, ONES),
    (B, 0), (B, 1), (B, 62), (B, 63), (B, 2**63 + 1), (B, ONES),
]
# The widths of concat's operands; the width of extract's operand, with the indexes of the bits.
INSIDE = [(1, 63), (63, 1), (32, 32), (1, 1)], [
    (64, 63, 0), (64, 63, 63), (64, 0, 0), (64, 62, 1), (63, 62, 0), (63, 62, 62), (1, 0, 0),
]
OUTSIDE = [(63, 2), (64, 1), (0, 64), (64, 0), (2**32 - 1, 2)], [
    (64, 64, 0), (63, 63, 0), (1, 1, 1), (64, 3, 4), (65, 0, 0), (0, 0, 0),
]


def signed(w, x):
    return x - 2**w if x >= 2 ** (w - 1) else x


# Of the width and the operands as numbers below 2^w. A shift by w or more leaves nothing, or the sign.
OPERATIONS = [
    ("reduce", lambda w, s, t: s),
    ("msb", lambda w, s, t: signed(w, s) < 0),
    ("equal", lambda w, s, t: s == t),
    ("ite-true", lambda w, s, t: s),
    ("ite-false", lambda w, s, t: t),
    ("bvnot", lambda w, s, t: -1 - s),
    ("bvand", lambda w, s, t: s & t),
    ("bvor", lambda w, s, t: s | t),
    ("bvxor", lambda w, s, t: s ^ t),
    ("bvadd", lambda w, s, t: s + t),
    ("bvcomp", lambda w, s, t: s == t),
    ("bvult", lambda w, s, t: s < t),
    ("bvslt", lambda w, s, t: signed(w, s) < signed(w, t)),
    ("bvshl", lambda w, s, t: s << t if t < w else 0),
    ("bvlshr", lambda w, s, t: s >> t if t < w else 0),
    ("bvashr", lambda w, s, t: signed(w, s) >> min(t, w)),
    ("bvmul", lambda w, s, t: s * t),
]


def is_width(w):
    return 1 <= w <= 64


for name, operation in OPERATIONS:
    for w in WIDTHS:
        for s, t in PAIRS:
            r = int(operation(w, s % 2**w, t % 2**w)) % 2**w
            print(f"{name} {w} {s:x} {t:x} = {r:x}")
    for w in NO_WIDTHS:
        print(f"{name} {w} {ONES:x} {ONES:x} = 0")
for concats, extracts in INSIDE, OUTSIDE:
    for m, n in concats:
        whole = is_width(m) and is_width(n) and is_width(m + n)
        r = (A % 2**m) * 2**n + B % 2**n if whole else 0
        print(f"concat {m} {A:x} {n} {B:x} = {r:x}")
    for w, i, j in extracts:
        inside = is_width(w) and j <= i < w
        r = (A % 2**w) // 2**j % 2 ** (i - j + 1) if inside else 0
        print(f"extract {w} {i} {j} {A:x} = {r:x}")
