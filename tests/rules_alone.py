#!/usr/bin/env python3
"""Whether the right side of what unsat says knows nothing of calls: the crates that it uses, and those that they use.

  tests/rules_alone.py

Prints nothing but faults; the exit status is 1 where there is one.
"""
import os
import re
import sys

ROOT = os.path.dirname(os.path.dirname(os.path.abspath(__file__)))
RIGHT_SIDE = 'crates/unsat/specs/Choice.antt'
RULES = {'logic', 'operators', 'cell', 'right', 'rules', 'working_out'}


def text_of(path):
    with open(os.path.join(ROOT, path), encoding='utf-8') as file:
        return file.read()


uses = {name: more.split() for name, more in re.findall(r'^(\w+)(?: \w+)?:(.*)', text_of('crates.txt'), re.M)}
# std is the kit's own library
found = [crate for crate in re.findall(r'^(?:pub )?use Rattle\.(\w+)', text_of(RIGHT_SIDE), re.M) if crate != 'std']
for crate in found:
    found += [other for other in uses[crate] if other not in found]
others = sorted(set(found) - RULES)
print(''.join(f'{RIGHT_SIDE} reaches the crate {crate}\n' for crate in others), end='')
sys.exit(1 if others or not found else 0)
