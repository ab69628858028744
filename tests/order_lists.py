#!/usr/bin/env python3
# Writes the input of the crate order_lists, and the lines it must write: of the lists of tests/order_lists.txt, worked
# out by hand, and of large and random ones, worked out by tests/vm_working_out.py. A list is how many words are lent,
# its length and its words, little-endian. With --check it only says whether they are current.
import os, re, struct, sys

os.chdir(os.path.join(os.path.dirname(os.path.abspath(__file__)), '..'))
sys.pycache_prefix = os.path.join(os.getcwd(), 'target', 'pycache')
sys.path.insert(0, 'tools')
import design
import notation
from verdict import Result
from vm_solvers import Tangled
from vm_working_out import Design

SLOTS = 4096
WHOLE = SLOTS + 4   # the words of the slice that the crate has
RANDOM = 30         # designs of each kind


class Ahead(Tangled):
    """Makes a design that seldom reads ahead: many have an order."""
    ahead = 0.01


def by_hand():
    """The lists of the text: how many words are lent, the words and the line."""
    lines = open('tests/order_lists.txt').read().split('\n')
    for number, line in enumerate(lines):
        case = re.fullmatch(r'\w+(?: in (\d+))? -> (.*)', line)
        if case:
            lent, answer = case.groups()
            yield int(lent or WHOLE), notation.parse(lines[number + 1])[0], answer


def listed(base, cells):
    return notation.parse('\n'.join([f'#{base} #{SLOTS - base} #0 #0'] + cells))[0]


def large():
    """As many slots as there may be: a chain backwards, a loop, a fan, and a ladder, each step on both of the last."""
    yield listed(SLOTS, [f'Not #1 s{slot + 1}' for slot in range(SLOTS - 1)] + ['Not #1 0'])
    yield listed(SLOTS, [f'Not #1 s{(slot + 1) % SLOTS}' for slot in range(SLOTS)])
    yield listed(1, ['Buf #1 0'] + ['Not #1 s0'] * (SLOTS - 1))
    last = ['Buf #1 0', 'Buf #1 1']
    yield listed(SLOTS // 2, [f'Aig s{slot + 2} s{slot + 3 - slot % 2 * 2}' for slot in range(SLOTS - 2)] + last)


def inputs():
    """As many slots in few words."""
    return listed(SLOTS, ['Input #63'] * 65 + ['Input #1'])


def result_of(words):
    result = Result('-', words=words)
    design.fill(result)
    return result


def reads_void(result):
    """Whether a net other than a clock or a from is of a Void of the base, which is fault 10."""
    voids = {cell.slot for cell in result.cells if cell.operation == 'Void' and not cell.added}
    nets = [net for cell in result.cells for pin in cell.pins if pin.role != 'clock' for net in pin.nets]
    return any(net.slot in voids for net in nets + [edit.new for edit in result.replacements])


def made(maker):
    """Random designs, without those that are refused."""
    found, seed = [], 0
    while len(found) < RANDOM:
        seed += 1
        words = maker(seed).words()
        if not reads_void(result_of(words)):
            found.append(words)
    return found


def worked_out(words):
    """The number of a list's slots, and its line."""
    result = result_of(words)
    looped, slots = Design(result).order()
    answer = ('looped' if looped else 'ordered') + f' {len(slots)}:'
    return result.base + result.added, ' '.join([answer] + [str(slot) for slot in slots])


def cases():
    yield from by_hand()
    for words in large():
        yield SLOTS, words, worked_out(words)[1]
    yield SLOTS, inputs(), 'ordered 0:'
    yield SLOTS - 1, inputs(), f'refused 14 at {SLOTS}'
    for words in made(Tangled) + made(Ahead):
        total, answer = worked_out(words)
        yield total, words, answer
        yield total - 1, words, f'refused 14 at {total}'


stdin, stdout = b'', b''
for lent, words, answer in cases():
    stdin += struct.pack('<%dI' % (len(words) + 2), lent, len(words), *words)
    stdout += answer.encode() + b' rest kept\n'
current = True
for path, content in (('crates/order_lists/stdin', stdin), ('crates/order_lists/stdout', stdout)):
    if sys.argv[1:] == ['--check']:
        current = current and os.path.exists(path) and open(path, 'rb').read() == content
    else:
        open(path, 'wb').write(content)
sys.exit(0 if current else 'tests/order_lists.txt or a generator has changed: run tests/order_lists.py')
