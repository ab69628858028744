#!/usr/bin/env python3
"""Whether every must-fail edit fits: each 'old:' text stands once in its file, after the edit's replacements before it.

  tests/edits.py

Prints nothing but faults; the exit status is 1 where there is one. Whether the prover refuses an edit is for the gate.
"""
import glob
import os
import sys

ROOT = os.path.dirname(os.path.dirname(os.path.abspath(__file__)))


def text_of(path):
    with open(path, encoding='utf-8') as file:
        return file.read()


def faults_of(path):
    """The faults of an edit: a 'file:' line holds for the 'old:' and 'new:' pairs after it."""
    crate, texts, file, old = os.path.dirname(os.path.dirname(path)), {}, None, None
    for line in text_of(path).splitlines():
        key, _, value = line.partition(': ')
        if key == 'file':
            file = value
            texts.setdefault(file, text_of(os.path.join(crate, file)))
        elif key == 'old':
            old = value
        elif line.startswith('new:'):
            if texts[file].count(old) != 1:
                yield f'{os.path.relpath(path, ROOT)}: its text stands {texts[file].count(old)} times in {file}: {old.strip()}'
            texts[file] = texts[file].replace(old, value)


faults = [fault for path in sorted(glob.glob(f'{ROOT}/crates/*/must-fail/*.edit')) for fault in faults_of(path)]
print(''.join(fault + '\n' for fault in faults), end='')
sys.exit(1 if faults else 0)
