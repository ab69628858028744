#!/usr/bin/env python3
# Holds tools/notation.py to the oracle's stored sample, in which each list stands as words and in notation: each way gives the other.
import os, sys

os.chdir(os.path.join(os.path.dirname(os.path.abspath(__file__)), '..'))
sys.path.insert(0, 'tools')
import notation


def stored(name):
    for words, text in zip(open(f'oracle/sample/{name}.txt'), open(f'oracle/sample/{name}-lists.txt')):
        found = [int(word, 16) for word in words.split()]
        yield found[3:3 + found[0]], text.rstrip('\n').split(' | ')[0]


def refused(text):
    try:
        notation.parse(text)
    except notation.NotWord as error:
        return error.token, error.line, error.column


lists = 0
for name in ('calls', 'refused'):
    for words, text in stored(name):
        assert notation.parse(text)[0] == words, text
        assert ', '.join(notation.show(words)) == text, text
        lists += 1
assert notation.parse('#1 ; all\n Buf s0*2')[1] == [(1, 1), (2, 2), (2, 6), (2, 6)]
assert refused('#0,\nNott #1') == ('Nott', 2, 1)
assert refused('s536870909') == ('s536870909', 1, 1) and refused('s536870908') is None
assert refused('#536870912') and refused('kind8:0') and refused('op32') and refused('0*x') and refused('#-1')
print(f'notation: {lists} stored lists, both ways')
