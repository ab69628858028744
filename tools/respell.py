#!/usr/bin/env python3
"""Spells the repository's own definitions and lemmas as Rattle does: words in snake case, a dash between two names.

  tools/respell.py            rewrites the crates, their must-fail edits and the documents
  tools/respell.py --list     prints each name that changes with its new spelling, and changes nothing

A word in lower camel case turns to snake case part by part, as `tvBinary-wp` to `tv_binary-wp`. In the name of a lemma a
dash stays between two parts that are both names of definitions or of constructors; elsewhere an underscore takes its
place, as in `two_nots_unsat`. Types, modules, what the code names, and the names that the check makes for the goals of
a function keep their spelling. It was run once, when the repository was brought over from an older Rattle.
"""
import collections
import glob
import os
import re
import sys

ROOT = os.path.dirname(os.path.dirname(os.path.abspath(__file__)))
# A word of antt: it ends at a space, a bracket or a dot.
WORD = re.compile(r"[^\s(){}\[\].,;:@\"«»`|/*]+")
CAMEL = re.compile(r"[a-z][a-z0-9]*(?:[A-Z][a-z0-9]*)+")
PART = re.compile(r"[A-Za-z0-9_]+")
DECLARED = re.compile(r"^ *(?:(?:pub|abbrev|unfoldable|syntax) )*(?:ruleset )?([^\s(){}:;=.]+)(?: \{[^{}\n]*\})* +:(?=\s)", re.M)
RULESET = re.compile(r"^(?:pub )?ruleset (\S+)", re.M)
DATA = re.compile(r"^pub data [^\n]*\n((?:  [^\n]*\n|\n)+)", re.M)
TYPE = re.compile(r"^ *(?:abbrev )?(?:pub )?(?:record|data) ([^\s(){}:]+)", re.M)
USE = re.compile(r"^(?:pub |ghost )?use ([^\s;{]+?)\.?\{([^}]*)\}", re.M)
COMMENT = re.compile(r'--[^\n]*|//[^\n]*')
CODE = re.compile(r'`([^`\n]+)`')


def text_of(path):
    with open(path, encoding='utf-8') as file:
        return file.read()


def snake(part):
    return re.sub(r'[A-Z]+', lambda m: '_' + m[0].lower(), part)


def camels(word):
    """The word with each of its parts in lower camel case turned."""
    return PART.sub(lambda m: snake(m[0]) if CAMEL.fullmatch(m[0]) else m[0], word)


def files(*patterns):
    return sorted({path for pattern in patterns for path in glob.glob(f'{ROOT}/{pattern}', recursive=True)
                   if os.path.isfile(path) and '/out/' not in path})


THEORY = files('crates/*/specs/*.antt', 'crates/*/proofs/*.antt')
PROOFS = files('crates/*/proofs/*/**/*.antt')
SOURCES = files('crates/*/src/*.rt')
EDITS = files('crates/*/must-fail/*.edit')
PAGES = files('README.md', 'docs/**/*.md')


def without_comments(text):
    return COMMENT.sub('', text)


def constructors():
    """The constructors of the repository's types."""
    found = set()
    for path in THEORY:
        for body in DATA.findall(without_comments(text_of(path))):
            for line in body.splitlines():
                found.update(line.split(':')[0].split() if ':' in line else ())
    return found


def names():
    """What the theory declares, in order, and the names that may stand on both sides of a dash."""
    declared, sides = {}, {camels(name) for name in constructors()}
    for path in THEORY:
        text = without_comments(text_of(path))
        for name in DECLARED.findall(text) + RULESET.findall(text):
            declared.setdefault(name, path)
            if '/specs/' in path and '-' not in name:
                sides.add(camels(name))
    for path in THEORY + SOURCES:
        for place, inside in USE.findall(without_comments(text_of(path))):
            if place.startswith('Rattle.std.specs') or place.startswith('Rattle.std.proofs.Common'):
                sides.update(word.split(' as ')[-1].strip() for word in inside.split(',') if '-' not in word)
    return declared, sides


def libraries():
    """The words that files take from the libraries."""
    taken = set()
    for path in THEORY + PROOFS + SOURCES:
        for place, inside in USE.findall(without_comments(text_of(path))):
            steps = place.split('.')
            if steps[0] != 'Rattle' or not os.path.isdir(f'{ROOT}/crates/{steps[1]}'):
                taken.update(word.split(' as ')[0].strip() for word in inside.split(','))
    return taken


def spelled(name, sides):
    parts = camels(name).split('-')
    words = parts[0]
    for before, part in zip(parts, parts[1:]):
        words += ('-' if before in sides and part in sides else '_') + part
    return words


def table():
    """Each word that changes, with its new spelling."""
    declared, sides = names()
    taken = libraries()
    defined = constructors() | {
        name for path in THEORY if '/specs/' in path for name in DECLARED.findall(without_comments(text_of(path)))}
    turned = {name: spelled(name, sides) for name in declared if name not in taken}
    groups = collections.defaultdict(list)
    for name in [*declared, *sorted(constructors() - set(declared))]:
        groups[turned.get(name, camels(name))].append(name)
    for new, olds in groups.items():
        if len(olds) > 1:
            # The name of a definition stays; a lemma that would have it ends in _lem.
            keeps = [name for name in olds if name in defined] or [name for name in olds if CAMEL.search(name)]
            for old in olds:
                if old in declared and old not in keeps:
                    turned[old] = new + '_lem'
    every = set()
    for path in THEORY + PROOFS + SOURCES + EDITS:
        every.update(WORD.findall(text_of(path)))
    for word in every - taken - set(turned):
        turned[word] = camels(word)
    return {old: new for old, new in turned.items() if old != new}


def fields():
    """The fields of the repository's records."""
    return {name for path in THEORY for name in re.findall(r'^ +pub ([^\s(){}:;=.]+)(?: \{[^{}\n]*\})* :', text_of(path), re.M)}


def turn(text, turned, passed, behind, spelling):
    """The text with its words turned: of what is passed, as a comment, only what stands between backticks, or is in camel
    case; behind a dot only a word that behind says."""
    def word(m):
        dotted = m.start() and m.string[m.start() - 1] == '.'
        return turned.get(m[0], m[0]) if not dotted or behind(m[0]) else m[0]

    def comment(m):
        if m[0].startswith(('use ', 'pub use ', 'ghost use ', '"', 'file: ', '#')):
            return m[0]
        inside = CODE.sub(lambda c: '`' + WORD.sub(lambda w: spelling(w[0]), c[1]) + '`', m[0])
        return WORD.sub(lambda w: turned[w[0]] if w[0] in turned and CAMEL.fullmatch(w[0]) else w[0], inside)

    done, at = [], 0
    for found in passed.finditer(text):
        done.append(WORD.sub(word, text[at:found.start()]))
        done.append(comment(found))
        at = found.end()
    return ''.join(done) + WORD.sub(word, text[at:])


# The path of an import, and comments; in the code, texts too; in an edit its head.
IN_ANTT = re.compile(r'^(?:pub )?use [^{\s]*|--[^\n]*', re.M)
IN_CODE = re.compile(r'^ghost use [^{\s]*|//[^\n]*|"[^"\n]*"', re.M)
IN_EDIT = re.compile(r'^#[^\n]*|^file: [^\n]*', re.M)


def as_declared(turned):
    """How a page spells a word: as the files do, where they declare it in another spelling."""
    declared = {turned.get(name, name) for name in names()[0]} | {turned.get(name, name) for name in constructors() | fields()}

    def spelling(word):
        if '_' in word and '-' not in word and not CAMEL.search(word):
            return word
        for new in (turned.get(word, word), camels(word), camels(word).replace('-', '_'), camels(word).replace('-', '_') + '_lem'):
            if new in declared:
                return new
        return word

    return spelling


def main():
    turned = table()
    spelling = as_declared(turned)
    if '--list' in sys.argv[1:]:
        for old, new in sorted(turned.items()):
            print(old, new)
        return
    in_camel_case = {old: new for old, new in turned.items() if CAMEL.search(old)}
    of_records = fields()
    for path in THEORY + PROOFS + EDITS + SOURCES:
        text = text_of(path)
        if path.endswith('.rt'):
            new = turn(text, in_camel_case, IN_CODE, lambda name: True, spelling)
        elif path.endswith('.edit'):
            new = turn(text, turned if 'file: src' not in text else in_camel_case, IN_EDIT, lambda name: True, spelling)
        elif path in THEORY:
            new = turn(text, turned, IN_ANTT, lambda name: True, spelling)
        else:
            new = turn(text, turned, IN_ANTT, lambda name: name in of_records or CAMEL.search(name), spelling)
        if new != text:
            with open(path, 'w', encoding='utf-8') as file:
                file.write(new)
    for path in PAGES:
        text = text_of(path)
        new = CODE.sub(lambda c: '`' + WORD.sub(lambda w: spelling(w[0]), c[1]) + '`', text)
        if new != text:
            with open(path, 'w', encoding='utf-8') as file:
                file.write(new)


main()
