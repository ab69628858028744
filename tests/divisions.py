#!/usr/bin/env python3
# The calls of a design of two Inputs and a division, worked out from docs/DIVISIONS.md alone, at any width. Writes that page's example, or says
# whether it is current:
#
#     tests/divisions.py [--check]
#
# tests/verify_lists.py takes the lists at widths 1, 2, 17 and 63 from here, and the program verify_lists holds the code to them; tests/call_lists.py
# takes these calls with trits on the operands, and the program read_calls evaluates them.
import itertools, os, sys

from division_table import divided

os.chdir(os.path.join(os.path.dirname(os.path.abspath(__file__)), '..'))
NET, HEAD, NUMBER, TERM = 0, 2, 3, 4
CELLS = {'UDiv': 23, 'UMod': 24, 'SDivTrunc': 25, 'SModTrunc': 26}
INPUT = 21
CALLS = {'and': 3, 'lit': 4, '=': 5, 'ite': 6, 'concat': 7, 'not': 2, 'declare': 21, 'assert': 22,
         'bvudiv': 24, 'bvurem': 25, 'bvsdiv': 26, 'bvsrem': 27}
ON_Y = {'UDiv': 'bvudiv', 'UMod': 'bvurem', 'SDivTrunc': 'bvsdiv', 'SModTrunc': 'bvsrem'}
PAGE, BEGIN, END = 'docs/DIVISIONS.md', '<!-- example -->', '<!-- end -->'


def word(kind, payload):
    return kind << 29 | payload


def record(operation, arguments):
    return [word(HEAD, operation + 32 * len(arguments))] + arguments


def design(cell, n):
    """Two Inputs of n bits, a in slots 0 to n - 1 and b in the next n, and a division of a by b; nothing is replaced."""
    header = [word(NUMBER, count) for count in (3 * n, 0, 0, 0)]
    operand = record(INPUT, [word(NUMBER, n)])
    nets = [word(NET, 2 + slot) for slot in range(2 * n)]
    return header + operand + operand + record(CELLS[cell], [word(NUMBER, n)] + nets)


class Calls:
    def __init__(self):
        self.made, self.terms, self.names = [], 0, {}

    def call(self, text, operation, arguments, term=True):
        self.made.append((f'k{self.terms}' if term else '', text, record(CALLS[operation], arguments)))
        self.terms += term
        return self.terms - 1

    def on(self, operation, *terms, term=True):
        text = ' '.join([operation] + [f'k{k}' for k in terms])
        return self.call(text, operation, [word(TERM, k) for k in terms], term)

    def literal(self, n, value):
        digits = [value >> 16 * i & 0xffff for i in range((n + 15) // 16)]
        return self.call('#b' + format(value, f'0{n}b'), 'lit', [word(NUMBER, d) for d in [n] + digits])

    def net(self, slot):
        """x and y of a slot, declared where they are read first."""
        if slot not in self.names:
            self.names[slot] = [self.call(f'declare n{slot}{"xy"[half]} 1', 'declare',
                                          [word(NUMBER, part) for part in (0, slot, 1 + half, 1)]) for half in range(2)]
        return self.names[slot]

    def value(self, slots):
        """All nets are read, then joined from the top, x before y."""
        nets = [self.net(slot) for slot in slots]
        x, y = nets.pop()
        while nets:
            low = nets.pop()
            x = self.on('concat', x, low[0])
            y = self.on('concat', y, low[1])
        return x, y

    def is_zero(self, term, n):
        return self.on('=', term, self.literal(n, 0))

    def divide(self, cell, a, b, n):
        no_x = self.on('and', self.is_zero(a[0], n), self.is_zero(b[0], n))
        by_zero = self.is_zero(b[1], n)
        defined = self.on('and', no_x, self.on('not', by_zero))
        x = self.on('ite', defined, self.literal(n, 0), self.literal(n, 2 ** n - 1))
        return x, self.on(ON_Y[cell], a[1], b[1])


def calls(cell, n):
    """Each Input is read; the division is made, its output read, and both are asserted equal."""
    c = Calls()
    c.value(range(n))
    c.value(range(n, 2 * n))
    a, b = c.value(range(n)), c.value(range(n, 2 * n))
    made = c.divide(cell, a, b, n)
    out = c.value(range(2 * n, 3 * n))
    same = c.on('and', c.on('=', out[0], made[0]), c.on('=', out[1], made[1]))
    c.on('assert', same, term=False)
    return c.made


def stored():
    """Lists, with the call words and the marks that they must have."""
    for cell in CELLS:
        for n in (1, 2, 17, 63):
            yield design(cell, n), [w for _, _, words in calls(cell, n) for w in words], [1] * (3 * n)


def result(cell, n, a, b):
    """The rule on operands of x and y: the x of the result, and the y that SMT-LIB has, under an X too."""
    undefined = a[0] or b[0] or b[1] == 0
    return (2 ** n - 1 if undefined else 0), divided(ON_Y[cell], n, a[1], b[1])


def operands(n):
    """Every pair of trits at widths 1 and 2, with a 1 under each X; else a few: of two signs, by zero, least by minus one, an X."""
    ones, least, odd = 2 ** n - 1, 2 ** (n - 1), 0x9e3779b97f4a7c15 % 2 ** n
    if n <= 2:
        every = [(x, x | y) for x in range(2 ** n) for y in range(2 ** n) if not x & y]
        return itertools.product(every, every)
    return [((0, odd), (0, ones - 4)), ((0, odd), (0, 0)), ((0, least), (0, ones)), ((0, odd), (least, 5))]


def evaluated():
    """Call words, a bit for each name, and how many assertions are false: none with the rule's trits on the output, at width 1 also one with
    another bit there."""
    for cell in CELLS:
        for n in (1, 2, 17, 63):
            words = [w for _, _, record in calls(cell, n) for w in record]
            for a, b in operands(n):
                x, y = result(cell, n, a, b)
                for false, out in ((0, (x, y)), (1, (1 - x, y)), (1, (x, 1 - y)))[:3 if n == 1 else 1]:
                    yield words, [half >> i & 1 for vector in (a, b, out) for i in range(n) for half in vector], false


def hexadecimal(words):
    return ' '.join(f'{w:08x}' for w in words)


def example():
    lines = ['', '    ' + hexadecimal(design('UDiv', 2)), '', '| term | call | its words |', '|---|---|---|']
    lines += [f'| {term} | {text} | `{hexadecimal(words)}` |' for term, text, words in calls('UDiv', 2)]
    return '\n'.join(lines + ['', ''])


if __name__ == '__main__':
    page = open(PAGE).read()
    before, rest = page.split(BEGIN)
    after = rest.split(END)[1]
    current = before + BEGIN + '\n' + example() + END + after
    if sys.argv[1:] == ['--check']:
        sys.exit(0 if page == current else 'docs/DIVISIONS.md has another example: run tests/divisions.py')
    open(PAGE, 'w').write(current)
