#!/usr/bin/env python3
# Writes the input of the crate verify_lists from the oracle's stored sample and the divisions of docs/DIVISIONS.md, and the line it must write. With
# --check it only says whether they are current.
import os, struct, sys

os.chdir(os.path.join(os.path.dirname(os.path.abspath(__file__)), '..'))
import divisions

PORTED, INDUCTIVE = 0, 1
ACCEPTED, REFUSED = 0, 1
NO_MODE = 23


def sample(name):
    """The lines of a file of the sample: three numbers, then the words."""
    return [[int(word, 16) for word in line.split()] for line in open(f'oracle/sample/{name}.txt')]


def list_of(line):
    return line[3:3 + line[0]]


calls, refused = sample('calls'), sample('refused')
records = [[ACCEPTED, PORTED] + line for line in calls]
records += [[REFUSED, PORTED] + line for line in refused]
records += [[ACCEPTED, PORTED] + [len(part) for part in parts] + [word for part in parts for word in part] for parts in divisions.stored()]
records += [[ACCEPTED, INDUCTIVE] + line for line in sample('inductive')]
# The first list of each fault is refused alike in the inductive mode. In a mode that there is not any list is, good, bad or empty.
of_each = {line[1]: line for line in reversed(refused)}
records += [[REFUSED, INDUCTIVE] + of_each[fault] for fault in sorted(of_each)]
for mode in (2, 2 ** 32 - 1):
    for words in (list_of(calls[0]), list_of(refused[-1]), []):
        records.append([REFUSED, mode, len(words), NO_MODE, 0] + words)

stdin = b''.join(struct.pack('<%dI' % len(record), *record) for record in records)
current = True
for path, content in (('crates/verify_lists/stdin', stdin), ('crates/verify_lists/stdout', b'%d lists as stored\n' % len(records))):
    if sys.argv[1:] == ['--check']:
        current = current and os.path.exists(path) and open(path, 'rb').read() == content
    else:
        open(path, 'wb').write(content)
sys.exit(0 if current else 'oracle/sample or tests/divisions.py has changed: run tests/verify_lists.py')
