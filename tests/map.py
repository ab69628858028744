#!/usr/bin/env python3
"""Whether docs/MAP.md names what exists, and README.md's tables of crates have every crate with what it holds.

  tests/map.py [--crates DIRECTORY]     the crates to look at; those of this repository, if none is given

Prints nothing but faults; the exit status is 1 where there is one. In MAP a place is `crate/File`, `crate/src` or
`crate/must-fail`, and `crate/File`: `name`, `name` says that each name is declared there: in specs/ in a column of
definitions, in proofs/ in one of theorems. In a table's columns but the first every name follows its place.
"""
import argparse
import functools
import os
import re
import sys

ROOT = os.path.dirname(os.path.dirname(os.path.abspath(__file__)))
PLACE = re.compile(r'([a-z_0-9]+)/(src|must-fail|[A-Z]\w*)')
FOLLOWS = re.compile(r'(:|,| to| and|, and)( fields?| edits?)? ')
LAW = re.compile(r'^ *(?:(?:pub|abbrev|unfoldable) )*(?:ruleset )?([^\s(){}:]+) +[:=](?:\s|$)', re.M)
TYPE = re.compile(r'^ *(?:pub )?(?:record|data) ([^\s(){}:]+)', re.M)
ITEM = re.compile(r'^(?:pub )?(?:extern "C" )?(?:fn|struct|enum|const) (\w+)', re.M)
HOLDS = ('code', 'definitions', 'theorems')


def text_of(path):
    try:
        with open(path, encoding='utf-8') as file:
            return file.read()
    except FileNotFoundError:
        return ''


def names_in(folder):
    """The names of a folder's files, without their endings; Lib is the list of a folder's modules."""
    names = os.listdir(folder) if os.path.isdir(folder) else []
    return {name.split('.')[0] for name in names if '.' in name} - {'Lib'}


def source_of(folder):
    return ''.join(text_of(os.path.join(folder, 'src', file)) for file in ('lib.rt', 'main.rt'))


@functools.lru_cache(None)
def declared(crates, crate, part, kinds):
    """The names that a place of a crate declares, in its folders of these kinds; none where there is no such place."""
    folder = os.path.join(crates, crate)
    if part == 'must-fail':
        return names_in(os.path.join(folder, part))
    if part == 'src':
        return set(ITEM.findall(source_of(folder)))
    if not names_in(os.path.join(folder, 'specs')):
        kinds = 'proofs',
    text = ''.join(text_of(os.path.join(folder, kind, part + '.antt')) for kind in kinds)
    return set(LAW.findall(text)) | set(TYPE.findall(text))


def kinds_of(head):
    """The folders in which the names of a column stand, by its head."""
    return ('specs',) if 'definition' in head else ('proofs',) if 'theorem' in head else ('specs', 'proofs')


def faults_in(text, crates, kinds, strict):
    """The faults of a piece of MAP; where it is strict, a name without a place is one."""
    place, end = None, 0
    for token in re.finditer(r'`([^`]+)`', text):
        name, between = token.group(1), text[end:token.start()]
        end = token.end()
        found = PLACE.fullmatch(name)
        if found:
            place = found
            if not declared(crates, *found.groups(), kinds):
                yield f'there is no {name}' + (f' in {" or ".join(kinds)}' if found.group(2)[0].isupper() else '')
        elif place and FOLLOWS.fullmatch(between):
            there = declared(crates, *place.groups(), kinds)
            if there and name not in there:
                yield f'{name} is not in {place.group()}'
        else:
            place = None
            if '/' in name and ' ' not in name:
                if not os.path.exists(os.path.join(ROOT, name)) and not os.path.exists(os.path.join(crates, name)):
                    yield f'there is no {name}'
            elif strict and name not in os.listdir(crates):
                yield f'{name} has no place'


def cells_of(line):
    return [cell.strip() for cell in line.strip()[1:-1].split('|')]


def pieces(text):
    """The rows and paragraphs of a page, each with the number of its first line."""
    begun = []
    for number, line in enumerate(text.split('\n'), 1):
        if begun and (not line or line.startswith('|')):
            yield begun[0][0], [' '.join(line for _, line in begun)]
            begun = []
        if line.startswith('|'):
            yield number, cells_of(line)
        elif line:
            begun.append((number, line))


def of_map(crates):
    heads, before = [], []
    for number, cells in pieces(text_of(os.path.join(ROOT, 'docs', 'MAP.md'))):
        heads, before = before if set(cells[0]) == {'-'} else heads, cells
        for column, cell in enumerate(cells):
            kinds = kinds_of(heads[column] if len(cells) > 1 and column < len(heads) else '')
            for fault in faults_in(cell, crates, kinds, column > 0):
                yield f'docs/MAP.md, line {number}: {fault}'


def holds(crates, crate):
    """What a crate holds: code if it has a function, definitions in specs/, theorems in proofs/."""
    folder = os.path.join(crates, crate)
    functions = re.search(r'\bfn ', source_of(folder))
    found = functions, names_in(os.path.join(folder, 'specs')), names_in(os.path.join(folder, 'proofs'))
    return ', '.join(word for word, there in zip(HOLDS, found) if there)


def of_readme(crates):
    named = set()
    for number, line in enumerate(text_of(os.path.join(ROOT, 'README.md')).split('\n'), 1):
        cells = cells_of(line) if line.startswith('| `') else []
        for crate in re.findall(r'`(\w+)`', cells[0]) if len(cells) == 3 else []:
            named.add(crate)
            if not os.path.isdir(os.path.join(crates, crate)):
                yield f'README.md, line {number}: there is no crate {crate}'
            elif cells[1] != holds(crates, crate):
                yield f'README.md, line {number}: {crate} holds {holds(crates, crate)}'
    for crate in sorted(set(os.listdir(crates)) - named):
        yield f'README.md: no row for the crate {crate}'


def main():
    options = argparse.ArgumentParser(description=__doc__, formatter_class=argparse.RawDescriptionHelpFormatter)
    options.add_argument('--crates', default=os.path.join(ROOT, 'crates'), metavar='DIRECTORY')
    crates = options.parse_args().crates
    faults = [*of_map(crates), *of_readme(crates)]
    print(''.join(f'{fault}\n' for fault in faults), end='')
    return 1 if faults else 0


sys.exit(main())
