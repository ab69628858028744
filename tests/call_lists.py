#!/usr/bin/env python3
"""Writes crates/read_calls/stdin and stdout: call lists with bits and room for values, what document 01's sentence "A call list is
malformed at .." says of each list, and what its evaluation gives.

    tests/call_lists.py [--check]

The sentence and SMT-LIB's operations are written anew here, not taken from the code. After the lists made below come the call
lists of the Rust that oracle/sample/calls.txt holds, all of them well formed, and those of the divisions, with trits on their
operands (tests/divisions.py)."""
import pathlib
import random
import struct
import sys

import divisions
from division_table import NAMES, divided

ROOT = pathlib.Path(__file__).resolve().parent.parent
K = 1 << 29
OPERATIONS = (
    ["bool_lit", "bool_ite", "not", "and", "lit", "equal", "ite", "concat", "extract", "bvnot"]
    + ["binary"] * 4 + ["bvcomp"] + ["compare"] * 2 + ["binary"] * 4 + ["declare", "assert", "check"] + ["binary"] * 4
)
DIVISIONS = range(24, 28)
OF_TWO = (*range(10, 21), *DIVISIONS)
COUNT = {
    "bool_lit": 1, "bool_ite": 3, "not": 1, "equal": 2, "ite": 3, "concat": 2, "extract": 3, "bvnot": 1,
    "binary": 2, "bvcomp": 2, "compare": 2, "declare": 4, "assert": 1, "check": 0,
}


def head(op, n): return 2 * K + op + 32 * n
def num(n): return 3 * K + n
def term(k): return 4 * K + k
def kind(w): return w >> 29
def pay(w): return w & (K - 1)
def is_num(w): return kind(w) == 3


def head_stands(o, n, a, names):
    if o == "and":
        return n >= 1
    if o == "lit":
        if n >= 1 and is_num(a[0]) and 1 <= pay(a[0]) <= 64:
            return n == 1 + (pay(a[0]) + 15) // 16
        return 2 <= n <= 5
    if n != COUNT[o]:
        return False
    return o != "declare" or tuple(a[:3]) not in names


def word_stands(o, i, a, sort):
    x, s = a[i], sort(a[i])
    vector = s not in (None, 0)
    if o == "bool_lit":
        return is_num(x) and pay(x) <= 1
    if o in ("not", "and", "bool_ite", "assert"):
        return s == 0
    if o == "lit":
        if i == 0:
            return is_num(x) and 1 <= pay(x) <= 64
        return is_num(x) and pay(x) < 2 ** max(0, min(16, pay(a[0]) - 16 * (i - 1)))
    if o == "equal":
        return s is not None and (i == 0 or s == sort(a[0]))
    if o == "ite":
        return s == 0 if i == 0 else vector and (i == 1 or s == sort(a[1]))
    if o == "concat":
        return vector and (i == 0 or s + sort(a[0]) <= 64)
    if o == "extract":
        if i == 0:
            return is_num(x) and pay(x) <= 63
        return is_num(x) and pay(x) <= pay(a[0]) if i == 1 else vector and s > pay(a[0])
    if o == "declare":
        return is_num(x) and (pay(x) <= 2 if i in (0, 2) else 1 <= pay(x) <= 64 if i == 3 else True)
    return vector and (i == 0 or s == sort(a[0]))


def sort_made(o, a, sort):
    if o == "lit":
        return pay(a[0])
    if o == "ite":
        return sort(a[1])
    if o == "concat":
        return sort(a[0]) + sort(a[1])
    if o == "extract":
        return pay(a[0]) + 1 - pay(a[1])
    if o in ("bvnot", "binary"):
        return sort(a[0])
    return {"bvcomp": 1, "declare": pay(a[-1])}.get(o, 0)


def verdict(w):
    at, sorts, names, checked = 0, [], set(), False

    def sort(x):
        return sorts[pay(x)] if kind(x) == 4 and pay(x) < len(sorts) else None

    while at < len(w):
        op, n = pay(w[at]) % 32, pay(w[at]) // 32
        if checked or kind(w[at]) != 2 or op > 27 or at + n >= len(w):
            return f"malformed at {at}"
        o, a = OPERATIONS[op], w[at + 1 : at + 1 + n]
        if not head_stands(o, n, a, names):
            return f"malformed at {at}"
        for i in range(n):
            if not word_stands(o, i, a, sort):
                return f"malformed at {at + 1 + i}"
        if o == "check":
            checked = True
        elif o != "assert":
            made = sort_made(o, a, sort) if a else 0
            sorts.append(made)
        if o == "declare":
            names.add(tuple(a[:3]))
        at += 1 + n
    return f"well formed {len(sorts)} {len(names)}"


def declare(letter, index, suffix, width): return [head(21, 4), num(letter), num(index), num(suffix), num(width)]


def made_here():
    out = []

    def c(*lists):
        out.append([x for l in lists for x in l])

    true = [head(0, 1), num(1)]
    # term 0 is a Bool, 1 and 2 have width 8, 3 has width 1
    p = true + declare(0, 0, 1, 8) + declare(0, 0, 2, 8) + declare(2, 5, 0, 1)
    c([]); c(true); c(p); c([head(23, 0)]); c(p, [head(22, 1), term(0)], [head(23, 0)])
    # heads
    for w in ([0], [num(0)], [term(0)], [5 * K], [head(0, 1)], [head(28, 0)], [head(31, 0)], [head(23, 1), num(0)],
              [head(0, 0)], [head(0, 2), num(0), num(0)], [head(3, 0)]):
        c(w); c(p, w)
    for op, n in ((1, 2), (2, 2), (5, 1), (6, 2), (7, 3), (8, 2), (9, 2), (10, 1), (14, 3), (15, 1), (21, 3), (22, 0)):
        c(p, [head(op, n)] + [term(0)] * n)
    for op in DIVISIONS:
        c(p, [head(op, 0)]); c(p, [head(op, 1), term(1)]); c(p, [head(op, 3)] + [term(1)] * 3)
    for op in range(28, 32):
        c(p, [head(op, 2), term(1), term(2)])
    # literals
    c([head(4, 2), num(1), num(1)]); c([head(4, 2), num(16), num(65535)]); c([head(4, 5), num(64)] + [num(65535)] * 4)
    c([head(4, 3), num(17), num(7), num(1)]); c([head(4, 1), num(1)]); c([head(4, 2), num(17), num(0)])
    c([head(4, 3), num(16), num(0), num(0)]); c([head(4, 2), num(0), num(0)]); c([head(4, 2), num(65), num(0)])
    c([head(4, 6)] + [num(0)] * 6); c([head(4, 2), term(0), num(0)]); c([head(4, 2), num(8), num(256)])
    c([head(4, 2), num(16), num(65536)]); c([head(4, 3), num(17), num(0), num(2)]); c([head(4, 2), num(8), term(0)])
    # terms and sorts
    for w in ([head(2, 1), term(4)], None, [head(2, 1), term(1)], [head(2, 1), num(0)], [head(2, 1), term(0)],
              [head(3, 3), term(0), term(0), term(1)], [head(3, 1), term(0)], [head(1, 3), term(0), term(0), term(1)],
              [head(1, 3), term(1), term(0), term(0)], [head(1, 3)] + [term(0)] * 3, [head(5, 2), term(0), term(0)],
              [head(5, 2), term(1), term(2)], [head(5, 2), term(1), term(3)], [head(5, 2), term(0), term(1)],
              [head(5, 2), term(9), term(1)], [head(6, 3), term(0), term(1), term(2)],
              [head(6, 3), term(1), term(1), term(2)], [head(6, 3), term(0), term(0), term(0)],
              [head(6, 3), term(0), term(1), term(3)]):
        c([head(2, 1), term(0)]) if w is None else c(p, w)
    c(p, [head(7, 2), term(1), term(3)], [head(7, 2), term(4), term(1)])
    c(p, [head(7, 2), term(0), term(1)]); c(p, [head(7, 2), term(1), term(0)])
    c(declare(0, 7, 0, 64), true, declare(0, 8, 0, 1), [head(7, 2), term(0), term(2)])
    c(declare(0, 7, 0, 63), declare(0, 8, 0, 1), [head(7, 2), term(0), term(1)])
    c(declare(0, 7, 0, 63), declare(0, 8, 0, 2), [head(7, 2), term(0), term(1)])
    for a in ((num(7), num(0), term(1)), (num(8), num(0), term(1)), (num(64), num(0), term(1)), (num(3), num(4), term(1)),
              (term(0), num(0), term(1)), (num(0), term(0), term(1)), (num(0), num(0), term(0))):
        c(p, [head(8, 3), *a])
    c(p, [head(9, 1), term(1)]); c(p, [head(9, 1), term(0)])
    for op in OF_TWO:
        c(p, [head(op, 2), term(1), term(2)], [head(5, 2), term(4), term(4)])
    for op in (10, 13, 14, 15, 16, 17, 20, *DIVISIONS):
        c(p, [head(op, 2), term(1), term(3)]); c(p, [head(op, 2), term(0), term(1)])
    for op in DIVISIONS:
        c(p, [head(op, 2), term(0), term(0)]); c(p, [head(op, 2), term(1), num(3)])
        c(p, [head(op, 2), term(1), term(2)], [head(5, 2), term(4), term(3)])
    c(p, [head(14, 2), term(1), term(2)], [head(5, 2), term(4), term(3)])
    c(p, [head(15, 2), term(1), term(2)], [head(2, 1), term(4)])
    # names
    for d in ((0, 0, 1, 8), (0, 0, 1, 9), (0, 0, 1, 0), (0, 0, 1, 65), (1, 0, 1, 8), (0, 1, 1, 8), (0, 0, 0, 8),
              (3, 0, 1, 8), (0, 0, 3, 8), (0, 9, 1, 0), (0, 9, 1, 65)):
        c(p, declare(*d))
    c(p, [head(21, 4), term(0), num(0), num(1), num(8)]); c(p, [head(21, 4), num(0), term(0), num(1), num(8)])
    c(p, [head(21, 4), num(0), num(9), num(1), term(0)])
    c(declare(2, 65535, 0, 4), declare(2, 65535, 0, 4)); c(declare(2, 65536, 0, 4), declare(2, 65536, 0, 4))
    c(declare(2, K - 1, 2, 4), declare(2, 70000, 2, 4), declare(2, K - 1, 2, 4))
    c(declare(2, 70000, 0, 4), declare(2, 70000, 1, 4), declare(1, 70000, 0, 4))
    # assert and check
    c(p, [head(22, 1), term(1)]); c(p, [head(22, 1), term(0)]); c(p, [head(23, 0)], [head(23, 0)])
    c([head(23, 0)], true); c(p, [head(23, 0), num(0)])
    return out


def of_sample():
    for line in (ROOT / "oracle/sample/calls.txt").read_text().splitlines():
        words = [int(w, 16) for w in line.split()]
        yield words[3 + words[0] : 3 + words[0] + words[1]]


def signed(x, w): return x - (1 << w) if x >> (w - 1) else x


def binary(op, x, y, w):
    """bvand bvor bvxor bvadd bvcomp bvult bvslt bvshl bvlshr bvashr bvmul and the divisions, by their numbers."""
    if op in DIVISIONS:
        return divided(NAMES[op - DIVISIONS[0]], w, x, y)
    return {
        10: lambda: x & y, 11: lambda: x | y, 12: lambda: x ^ y, 13: lambda: x + y, 14: lambda: int(x == y),
        15: lambda: int(x < y), 16: lambda: int(signed(x, w) < signed(y, w)), 17: lambda: x << y if y < w else 0,
        18: lambda: x >> y if y < w else 0, 19: lambda: signed(x, w) >> min(y, w - 1), 20: lambda: x * y,
    }[op]() % (1 << w)


def records(w):
    at = 0
    while at < len(w):
        op, n = pay(w[at]) % 32, pay(w[at]) // 32
        yield op, [pay(x) for x in w[at + 1 : at + 1 + n]]
        at += 1 + n


def value(op, a, values, sorts):
    """The number and the sort of the term that an operation makes of its arguments' payloads."""
    v = lambda i: values[a[i]]
    s = lambda i: sorts[a[i]]
    if op == 0:
        return a[0], 0
    if op in (1, 6):
        return (v(1) if v(0) else v(2)), s(1)
    if op == 2:
        return 1 - v(0), 0
    if op == 3:
        return int(all(values[k] for k in a)), 0
    if op == 4:
        return sum(d << (16 * i) for i, d in enumerate(a[1:])), a[0]
    if op == 5:
        return int(v(0) == v(1)), 0
    if op == 7:
        return (v(0) << s(1)) + v(1), s(0) + s(1)
    if op == 8:
        return (v(2) >> a[1]) % (1 << (a[0] - a[1] + 1)), a[0] - a[1] + 1
    if op == 9:
        return (1 << s(0)) - 1 - v(0), s(0)
    return binary(op, v(0), v(1), s(0)), {14: 1, 15: 0, 16: 0}.get(op, s(0))


def evaluation(w, bits, room):
    """The evaluator's answer, and the values after, which were all 7777."""
    kept = [7777] * room
    place = verdict(w)
    if place.startswith("malformed"):
        return f"refused 19 at {place.split()[-1]}", kept
    terms, given = 0, list(bits)
    for op, a in records(w):
        if op == 21 and (not given or given.pop(0) >> a[3]):
            return f"refused 20 at {terms}", kept
        terms += op not in (22, 23)
    if room < terms:
        return f"refused 20 at {room}", kept
    values, sorts, given, false = [], [], list(bits), 0
    for op, a in records(w):
        if op == 22:
            false += values[a[0]] == 0
        elif op != 23:
            number, sort = (given.pop(0), a[3]) if op == 21 else value(op, a, values, sorts)
            values.append(number)
            sorts.append(sort)
    return f"evaluated {false}", values + kept[terms:]


def line(w, bits, room):
    answer, values = evaluation(w, bits, room)
    if len(values) <= 64:
        return f"{verdict(w)}; {answer};" + "".join(f" {v}" for v in values) + "\n"
    digest = 0
    for v in values:
        digest = (3 * digest + v) % (1 << 64)
    return f"{verdict(w)}; {answer}; digest {digest}\n"


def operations_at(width, x, y):
    """Every operation on two vectors of a width, with a literal of it; joined with what makes 64, if anything is left."""
    low, high, left = 0, width - 1, 64 - width
    digits = [(x >> (16 * i)) % 65536 for i in range((width + 15) // 16)]
    w = declare(0, 0, 1, width) + declare(0, 0, 2, width) + [head(4, 1 + len(digits)), num(width)] + [num(d) for d in digits]
    w += [head(5, 2), term(0), term(1)] + [head(6, 3), term(3), term(0), term(1)] + [head(9, 1), term(0)]
    for op in OF_TWO:
        w += [head(op, 2), term(0), term(1)]
    for i, j in ((high, low), (high, high), (low, low), (high // 2, low), (high, high // 2)):
        w += [head(8, 3), num(i), num(j), term(0)]
    if left:
        w += declare(1, 3, 0, left) + [head(7, 2), term(0), term(26)] + [head(7, 2), term(26), term(1)]
    return w, [x, y] + [(1 << left) - 2] * (left > 1) + [1] * (left == 1)


def evaluated_here():
    out = []
    for width in (1, 17, 63, 64):
        ones, top = (1 << width) - 1, 1 << (width - 1)
        amounts = {0, 1, width - 1, width, width + 1, ones}
        pairs = [(ones, 1 & ones), (top, ones), (ones, top), (0, 0), (ones, 0), (top - 1, 0)]
        pairs.append((0x9E3779B97F4A7C15 & ones, 0xD1B54A32D192ED03 & ones))
        for x, y in pairs + [(top + 1 & ones, y & ones) for y in sorted(amounts)]:
            w, bits = operations_at(width, x, y)
            out.append((w, bits, 30))
    false, true, byte = [head(0, 1), num(0)], [head(0, 1), num(1)], declare(2, 9, 0, 8)
    says = lambda k: [head(22, 1), term(k)]
    p = false + true + [head(2, 1), term(0)] + [head(1, 3), term(1), term(0), term(2)]
    # Bools; assertions, false ones among them
    out += [(p + [head(3, n)] + [term(k) for k in ks], [], 6) for n, ks in ((1, [0]), (1, [1]), (2, [1, 2]), (3, [1, 2, 3]), (2, [0, 1]))]
    for asked in ([], [0], [1], [0, 1], [1, 0], [0, 0, 1], [3, 2, 1, 0], [1] * 5 + [0]):
        out.append((p + sum((says(k) for k in asked), []) + [head(23, 0)], [], 4))
    out.append((says(0), [], 4)); out.append((true + says(0), [], 1))
    # fault 20: bits missing or above the width, at the declaration's term; then the room; 19 goes before
    two = true + byte + false + declare(2, 10, 0, 64)
    out += [(two, bits, room) for bits in ([], [255], [256, 0], [255, 2**64 - 1], [255, 1, 2], [2**64 - 1]) for room in (0, 3, 4, 6)]
    out += [(declare(0, 0, 0, w), [bits], 1) for w in (1, 17, 63, 64) for bits in (2**w - 1, min(2**w, 2**64 - 1), 2**64 - 1)]
    out += [(two + [head(2, 1), term(1)], [], 2), ([], [], 0), ([], [1], 2)]
    return out


def past_tables():
    """Names about index 7,167, the last that the checker's own table of names has, declared again or not."""
    for a, b in ((7167, 7167), (7168, 7168), (7167, 7168), (7168, 7167)):
        for letter, suffix in ((0, 0), (0, 1), (2, 2)):
            yield declare(letter, a, suffix, 4) + declare(letter, b, suffix, 4)


def cases():
    chance = random.Random(1)
    for w in made_here():
        widths = [a[3] for op, a in records(w) if op == 21] if verdict(w).startswith("well") else []
        yield w, [5 % (1 << n) for n in widths], 3
        yield w, [chance.getrandbits(n) for n in widths], 9
    yield from evaluated_here()
    for w in of_sample():
        assert verdict(w).startswith("well formed")
        yield w, [chance.getrandbits(a[3]) for op, a in records(w) if op == 21], int(verdict(w).split()[2]) + 2
    for w, bits, false in divisions.evaluated():
        room = sum(op not in (22, 23) for op, _ in records(w))
        assert evaluation(w, bits, room)[0] == f"evaluated {false}"
        yield w, bits, room
    for w in past_tables():
        yield w, [5, 6], 3


def main():
    stdin = stdout = b""
    for w, bits, room in cases():
        halves = [h for b in bits for h in (b & 0xFFFFFFFF, b >> 32)]
        row = [len(w), *w, len(bits), *halves, room]
        stdin += struct.pack(f"<{len(row)}I", *row)
        stdout += line(w, bits, room).encode()
    for name, text in (("stdin", stdin), ("stdout", stdout)):
        path = ROOT / "crates/read_calls" / name
        if "--check" in sys.argv:
            assert path.read_bytes() == text, f"{path} is not current"
        else:
            path.write_bytes(text)


main()
