#!/usr/bin/env python3
"""Call lists with their recorded marks, and their scripts by document 01's sentences, written here in Python and not taken from the
code. Writes crates/script_test/stdin and stdout; with `every` writes the case of every operation to standard output instead, with
`divisions SEED` one of random divisions, each asserted to have its quotient or remainder, and with `evaluated SEED` the same list as
the program read_calls takes it."""
import pathlib, random, struct, sys

from division_table import divided

HEAD, NUMBER, TERM = 2 << 29, 3 << 29, 4 << 29
BINARY = {10: "bvand", 11: "bvor", 12: "bvxor", 13: "bvadd", 14: "bvcomp", 15: "bvult", 16: "bvslt", 17: "bvshl", 18: "bvlshr",
          19: "bvashr", 20: "bvmul", 24: "bvudiv", 25: "bvurem", 26: "bvsdiv", 27: "bvsrem"}
BOOL, BIT = "Bool", "(_ BitVec 1)"

class Calls:
    """A call list: words, and the lines of its script."""
    def __init__(self):
        self.words, self.lines, self.terms = [], [], []
    def record(self, op, args):
        self.words += [HEAD + op + 32 * len(args)] + args
    def term(self, op, args, sort, text):
        self.record(op, args)
        k = len(self.terms)
        self.terms.append(("k%d" % k, sort))
        self.lines.append("(define-fun k%d () %s %s)" % (k, sort, text))
        return k
    def of(self, *ks):
        return " ".join(self.terms[k][0] for k in ks)
    def refs(self, *ks):
        return [TERM + k for k in ks]
    def boolean(self, b):
        return self.term(0, [NUMBER + b], BOOL, "true" if b else "false")
    def apply(self, op, name, sort, *ks):
        return self.term(op, self.refs(*ks), sort, "(%s %s)" % (name, self.of(*ks)))
    def conjunction(self, *ks):
        return self.term(3, self.refs(*ks), BOOL, self.of(*ks) if len(ks) == 1 else "(and %s)" % self.of(*ks))
    def literal(self, width, value):
        digits = [(value >> (16 * i)) & 0xffff for i in range((width + 15) // 16)]
        return self.term(4, [NUMBER + width] + [NUMBER + d for d in digits], "(_ BitVec %d)" % width, "#b" + format(value, "0%db" % width))
    def extract(self, high, low, k):
        return self.term(8, [NUMBER + high, NUMBER + low] + self.refs(k), "(_ BitVec %d)" % (high - low + 1),
                         "((_ extract %d %d) %s)" % (high, low, self.of(k)))
    def declare(self, letter, index, suffix, width):
        self.record(21, [NUMBER + "npt".index(letter), NUMBER + index, NUMBER + ["", "x", "y"].index(suffix), NUMBER + width])
        name, sort = "%s%d%s" % (letter, index, suffix), "(_ BitVec %d)" % width
        self.terms.append((name, sort))
        self.lines.append("(declare-const %s %s)" % (name, sort))
        return len(self.terms) - 1
    def claim(self, k):
        self.record(22, self.refs(k))
        self.lines.append("(assert %s)" % self.of(k))
    def check(self):
        self.record(23, [])
        self.lines.append("(check-sat)")

def script(calls, marks):
    lines = ["(set-option :produce-models true)", "(set-logic QF_BV)"] + calls.lines
    names = " ".join("%s%dx %s%dy" % (l, i, l, i) for i, m in enumerate(marks) for l in [" np"[m]] if m)
    if "(check-sat)" not in calls.lines:
        lines.append("; nothing asked")
    elif names:
        lines.append("(get-value (%s))" % names)
    return "".join(l + "\n" for l in lines)

def example():
    """Document 01's: an Input, a Not of it, and the Not replaced by its argument."""
    c = Calls()
    x0, y0 = c.declare("n", 0, "x", 1), c.declare("n", 0, "y", 1)
    k2 = c.apply(9, "bvnot", BIT, y0)
    x1, y1 = c.declare("n", 1, "x", 1), c.declare("n", 1, "y", 1)
    c.claim(c.conjunction(c.apply(5, "=", BOOL, x1, x0), c.apply(5, "=", BOOL, y1, k2)))
    k8 = c.apply(9, "bvnot", BIT, x1)
    k10 = c.apply(5, "=", BOOL, x0, c.apply(10, "bvand", BIT, x0, x1))
    k13 = c.apply(5, "=", BOOL, c.apply(10, "bvand", BIT, k8, y1), c.apply(10, "bvand", BIT, k8, y0))
    k15 = c.conjunction(c.conjunction(k10, k13))
    c.claim(c.apply(2, "not", BOOL, k15))
    c.check()
    return c

def every():
    """Every operation, at several widths, with a name of each letter and suffix."""
    c = Calls()
    x, y = c.declare("n", 0, "x", 1), c.declare("n", 0, "y", 1)
    p, q = c.declare("p", 3, "x", 1), c.declare("p", 3, "y", 1)
    t = c.declare("t", 12, "", 17)
    wide = c.literal(64, 0x8123456789abcdef)
    a, b = c.literal(17, 0x1ffff), c.literal(17, 5)
    yes, no = c.boolean(1), c.boolean(0)
    S = "(_ BitVec 17)"
    for op, name in BINARY.items():
        c.apply(op, name, BOOL if op in (15, 16) else BIT if op == 14 else S, t, b)
    joined = c.term(7, c.refs(t, x), "(_ BitVec 18)", "(concat %s)" % c.of(t, x))
    part = c.extract(63, 47, wide)
    c.extract(17, 17, joined)
    chosen = c.apply(6, "ite", S, yes, part, a)
    inverted = c.apply(9, "bvnot", S, chosen)
    either = c.apply(1, "ite", BOOL, yes, no, yes)
    c.claim(c.conjunction(c.apply(2, "not", BOOL, either), c.apply(5, "=", BOOL, inverted, t), c.apply(5, "=", BOOL, yes, yes)))
    c.claim(c.conjunction(c.apply(5, "=", BOOL, x, p)))
    c.claim(c.conjunction(c.apply(5, "=", BOOL, y, q)))
    c.check()
    return c

def divisions(seed):
    """The four divisions of random operands, each asserted to be what Python's integers give; a divisor is often zero."""
    c, chance = Calls(), random.Random(seed)
    for _ in range(20):
        width = chance.randint(1, 64)
        edges = [0, 1 << (width - 1), (1 << width) - 1]
        s, t = (chance.choice(edges + [chance.getrandbits(chance.randint(1, width)) for _ in edges]) for _ in "st")
        a, b = c.literal(width, s), c.literal(width, t)
        for op in range(24, 28):
            made = c.apply(op, BINARY[op], "(_ BitVec %d)" % width, a, b)
            c.claim(c.apply(5, "=", BOOL, made, c.literal(width, divided(BINARY[op], width, s, t))))
    c.check()
    return c

def packed(calls, marks, room=65536):
    w = calls if isinstance(calls, list) else calls.words
    return struct.pack("<%dI" % (len(w) + 3), len(w), len(marks), room, *w) + bytes(marks)

if sys.argv[1:] == ["every"]:
    sys.stdout.buffer.write(packed(every(), [1, 0, 0, 2]))
    sys.exit()
if sys.argv[1:2] == ["divisions"]:
    sys.stdout.buffer.write(packed(divisions(int(sys.argv[2])), []))
    sys.exit()
if sys.argv[1:2] == ["evaluated"]:
    c = divisions(int(sys.argv[2]))
    sys.stdout.buffer.write(struct.pack("<%dI" % (len(c.words) + 3), len(c.words), *c.words, 0, len(c.terms)))
    sys.exit()
ex, ev, unchecked, empty = example(), every(), Calls(), Calls()
unchecked.declare("n", 0, "x", 1), unchecked.declare("n", 0, "y", 1)
size = len(script(ex, [1, 1]))

def high(*names):
    """Names at and past index 4,095, the last that the writer's own table of names has."""
    c = Calls()
    for letter, index, suffix in names:
        c.declare(letter, index, suffix, 1)
    c.check()
    return c

last = [("n", 4095, "x"), ("n", 4095, "y"), ("p", 4096, "x"), ("p", 4096, "y")]
marked = [0] * 4095 + [1, 2]
cases = [(packed(ex, [1, 1]), script(ex, [1, 1])), (packed(ex, [1, 1], size), script(ex, [1, 1])),
         (packed(ex, [0, 0]), script(ex, [0, 0])), (packed(ex, []), script(ex, [])),
         (packed(ev, [1, 0, 0, 2]), script(ev, [1, 0, 0, 2])), (packed(unchecked, [1]), script(unchecked, [1])),
         (packed(empty, []), script(empty, [])),
         (packed(ex, [1, 1], size - 1), "refused 15 at %d\n" % size), (packed(ex, [1, 1], 0), "refused 15 at %d\n" % size),
         (packed(ex, [1, 2], 0), "refused 2 at 1\n"), (packed(ex, [1, 1, 1], 0), "refused 2 at 2\n"),
         (packed(ex, [3], 0), "refused 2 at 0\n"), (packed(ex, [0, 0, 2]), "refused 2 at 2\n"),
         (packed(unchecked, [2]), "refused 2 at 0\n"),
         (packed(high(*last), marked), script(high(*last), marked)),
         (packed(high(*last[:3]), marked), "refused 2 at 4096\n"), (packed(high(*last[1:]), marked), "refused 2 at 4095\n"),
         (packed(high(*last, last[3]), marked), "refused 19 at 20\n"), (packed(high(*last, last[0]), marked), "refused 19 at 20\n"),
         (packed(ex.words[:-1] + [NUMBER], [3], 0), "refused 19 at %d\n" % (len(ex.words) - 1)),
         (packed(ex.words + [HEAD + 23], [3], 0), "refused 19 at %d\n" % len(ex.words)),
         (packed([HEAD + 9 + 32, TERM], [3], 0), "refused 19 at 1\n"), (packed([HEAD + 3], [3], 0), "refused 19 at 0\n")]
for op in range(28, 32):
    unknown = Calls()
    number = unknown.declare("t", 0, "", 8)
    unknown.record(op, unknown.refs(number, number))
    cases.append((packed(unknown, [], 0), "refused 19 at 5\n"))
crate = pathlib.Path(__file__).resolve().parent.parent / "crates" / "script_test"
(crate / "stdin").write_bytes(b"".join(c for c, _ in cases))
(crate / "stdout").write_text("".join(t for _, t in cases))
