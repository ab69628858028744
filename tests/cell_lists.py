#!/usr/bin/env python3
# Writes the input of the crate cells_test: for every operation, lists of one cell at widths 0 (where allowed), 1, 2, 17 and 63 over three Inputs
# of 63 nets, with constants, inverted controls and both flags among the operands; and, by the oracle (oracle/build first), the Rust's answer to each,
# for a division its answer for a Mul, changed as docs/DIVISIONS.md says.
import os, random, struct, subprocess

os.chdir(os.path.join(os.path.dirname(os.path.abspath(__file__)), '..'))
ORACLE = 'oracle/target/oracle'
WIDTHS = [0, 1, 2, 17, 63]
BASE = 189  # slots of the Inputs; the cell's own slots follow
pick = random.Random(14)


def net():
    return pick.choice(['0', '1', 'X'] + ['s%d' % pick.randrange(BASE) for _ in range(9)])


def nets(n):
    return [net() for _ in range(n)]


def control():
    return pick.choice(['', '!']) + net()


def constants(n):
    return [pick.choice('01X') for _ in range(n)]


def numbers(*values):
    return ['#%d' % v for v in values]


def match(n, k, most):
    body = numbers(n, k) + [net()] + nets(n)
    for _ in range(k):
        alternates = pick.randrange(most + 1)
        body += numbers(alternates) + constants(n * alternates)
    return body


def assign(n, u, offset):
    return numbers(n, u, offset) + [net()] + nets(n) + nets(u)


def dff(n, flag, clear):
    return numbers(n, flag) + [control(), clear, control(), control()] + nets(n) + constants(2 * n)


# The bodies of an operation, each with the slots that its cell takes.
def bodies():
    for n in WIDTHS:
        for op in ['Buf', 'Not']:
            yield op, n, numbers(n) + nets(n)
        for op in ['And', 'Or', 'Xor', 'Mul']:
            yield op, n, numbers(n) + nets(2 * n)
        if n:
            for op in ['Eq', 'ULt', 'SLt']:
                yield op, 1, numbers(n) + nets(2 * n)
        yield 'Mux', n, numbers(n) + nets(1 + 2 * n)
        yield 'Adc', n + 1, numbers(n) + nets(2 * n + 1)
        yield 'IoBuf', n, numbers(n)
        for op in ['Shl', 'UShr', 'SShr', 'XShr']:
            for m, stride in [(0, 1), (1, 0), (3, 1), (5, 12), (32, 3), (2, 2 ** 29 - 1)]:
                if n or op != 'SShr':
                    yield op, n, numbers(n, m, stride) + nets(n + m)
        for k, most in [(0, 1), (1, 1), (2, 3), (17, 2)]:
            yield 'Match', k, match(n, k, most)
        for u, offset in sorted({(0, 0), (0, n), (n, 0), (n // 2, n - n // 2), (n // 3, n // 3)}):
            yield 'Assign', n, assign(n, u, offset)
        for flag in [0, 1]:
            for clear in ['0', '!1', '1', 'X', control()]:
                yield 'Dff', n, dff(n, flag, clear)
    for _ in range(4):
        yield 'Aig', 1, [control(), control()]
    yield 'Match', 63, match(2, 63, 8)
    yield 'Void', 0, []
    yield 'Note', 0, []
    yield 'Input', 63, numbers(63)
    for n in WIDTHS:
        for op in ['UDiv', 'UMod'] + ['SDivTrunc', 'SModTrunc'] * (n > 0):
            yield op, n, numbers(n) + nets(2 * n)


def lists():
    for op, width, body in bodies():
        head = ['#%d #0 #0 #0' % (BASE + max(1, width)), 'Input #63', 'Input #63', 'Input #63']
        yield ', '.join(head + [' '.join([op] + body)])


def oracle(text, *command):
    return subprocess.run([ORACLE, *command], input=text, capture_output=True, text=True, check=True).stdout


texts = list(lists())
words = oracle('\n'.join(texts) + '\n', 'words')
with open('crates/cells_test/stdin', 'wb') as out:
    for line in words.splitlines():
        one = [int(w, 16) for w in line.split()]
        out.write(struct.pack('<%dI' % (1 + len(one)), len(one), *one))
with open('crates/cells_test/stdout', 'w') as out:
    out.write(oracle(words, 'digest', 'divisions'))
print(len(texts), 'lists')
