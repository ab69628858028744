"""Designs in files: document 01's notation, or little-endian words."""
import os
import re
import stat
import struct
import sys

import notation
from verdict import PORTED, Result

MOST_BYTES = 2 ** 24
LONG = f'The file has more than {MOST_BYTES:,} bytes, and a design has at most 16,384 words.'
ENDINGS = ('.txt', '.words')
# In a directory, the verdicts that its designs should have; no design.
EXPECTED = 'expected.txt'


class BadSource(Exception):
    """A file that holds no design: a sentence, and where it is a text the line, the column and the line's text."""

    def __init__(self, path, sentence, line=None, column=None, shown=()):
        self.path, self.sentence, self.line, self.column, self.shown = path, sentence, line, column, list(shown)
        where = path if line is None else f'{path}, line {line}, column {column}'
        super().__init__(f'{where}: {sentence}')


def why(error):
    """What an OSError says, for a sentence."""
    return (error.strerror or str(error)).lower()


def printable(text):
    """A text without the characters that move a terminal's cursor."""
    return ''.join(character if character.isprintable() or character == '\t' else '\ufffd' for character in text)


def caret(text, line, column, most=100):
    """A line of a text, cut to a terminal's width, and a line below it with carets under the word at a column."""
    whole = text.split('\n')[line - 1] if line <= text.count('\n') + 1 else ''
    word = re.match(r'[^\s,;]*', whole[column - 1:]).group() or ' '
    cut = max(0, column - most // 2) if len(whole) > most else 0
    shown = printable(whole[cut:cut + most])
    blank = ''.join('\t' if character == '\t' else ' ' for character in shown[:column - 1 - cut])
    return [shown, blank + '^' * max(1, min(len(word), most - len(blank)))]


def _bytes(path):
    """What a file holds, up to a little more than a design can have."""
    try:
        if path == '-':
            return sys.stdin.buffer.read(MOST_BYTES + 1)
        with open(path, 'rb') as file:
            return file.read(MOST_BYTES + 1)
    except IsADirectoryError:
        if not _designs(path):
            raise BadSource(path, f'No file of this directory ends in {" or ".join(ENDINGS)}.')
        raise BadSource(path, 'This is a directory. `vm check` takes directories; the other commands take a file.')
    except FileNotFoundError:
        raise BadSource(path, 'There is no such file.')
    except PermissionError:
        raise BadSource(path, 'You are not allowed to read this file.')
    except OSError as error:
        raise BadSource(path, f'The file cannot be read: {why(error)}.')


def _text(path, content):
    """The text of a file, None where it holds words, which have zero bytes: the numbers of a header are small."""
    if content.startswith((b'\xff\xfe', b'\xfe\xff')):
        raise BadSource(path, 'This text is in UTF-16. Save it as UTF-8 or ASCII.')
    if b'\0' in content:
        return None
    if len(content) > MOST_BYTES:
        raise BadSource(path, LONG)
    try:
        return content.decode('utf-8-sig').replace('\r\n', '\n').replace('\r', '\n')
    except UnicodeDecodeError as error:
        raise BadSource(path, f'This is neither a text nor a list of words: byte {error.start} belongs to no UTF-8 '
                        'text, and words would have zero bytes.')


def content(path):
    """What a file holds, and its text, None where it holds words; of a very long file the beginning of its words."""
    found = _bytes(path)
    return found, _text(path, found)


def parsed(path, text):
    """The words of a text, for each its line and column, and the names of slots."""
    try:
        return notation.parse_named(text)
    except notation.NotWord as error:
        sentence = printable(error.reason) + ('' if error.reason.endswith('?') else '.')
        raise BadSource(path, sentence, error.line, error.column, caret(text, error.line, error.column))


def read(path, mode=PORTED):
    """The design of a file, as the beginning of a result in a mode."""
    result = Result(path, mode=mode)
    found, result.text = content(path)
    if result.text is not None:
        result.words, result.places, result.names = parsed(path, result.text)
    elif len(found) > MOST_BYTES:
        raise BadSource(path, LONG)
    elif len(found) % 4:
        raise BadSource(path, f'The list ends in the middle of a word: the file has {len(found):,} bytes, and a word '
                        'has four.')
    else:
        result.words = list(struct.unpack(f'<{len(found) // 4}I', found))
    return result


def _designs(folder):
    """The designs of a directory: the files in and below it that end in ENDINGS."""
    found = []
    for inside, folders, names in os.walk(folder):
        folders[:] = sorted(name for name in folders if not name.startswith('.'))
        found += [os.path.join(inside, name) for name in sorted(names)
                  if name.endswith(ENDINGS) and name != EXPECTED and not name.startswith('.')]
    return found


def files(paths):
    """The designs that are named: files as they are, and those of directories; one without any stays, and has none."""
    found = []
    for path in paths:
        found += _designs(path) or [path] if path != '-' and os.path.isdir(path) else [path]
    return found


def same_file(path, design):
    """Whether a path names the very file that a design was read from."""
    try:
        taken = os.fstat(sys.stdin.fileno()) if design == '-' else os.stat(design)
        return stat.S_ISREG(taken.st_mode) and os.path.samestat(taken, os.stat(path))
    except (OSError, ValueError):
        return False
