"""The proved verifier from Python: its C interface (include/virginalmimas.h) as a shared library, which is made once
from the proved archive.

Every entry here asks the archive and lends the room that the archive says it needs; nothing is worked out in Python.
"""
import ctypes
import glob
import os
import re
import shutil
import struct
import subprocess
import sys
import zlib

import building
from building import Unavailable

# Call words that are lent at most: their script has some 16 bytes for each.
MOST_WORDS = 2 ** 25


def _link(archive, library):
    """Makes the shared library from the archive, and removes older ones beside it."""
    compiler = next((name for name in ('cc', 'gcc', 'clang') if shutil.which(name)), None)
    if not compiler:
        raise Unavailable('No C compiler is on the PATH to link the proved archive with: apt-get install gcc.')
    made = f'{library}.{os.getpid()}'
    done = subprocess.run([compiler, '-shared', '-o', made, '-Wl,--whole-archive', archive, '-Wl,--no-whole-archive'],
                          stdout=subprocess.PIPE, stderr=subprocess.STDOUT, stdin=subprocess.DEVNULL)
    if done.returncode != 0:
        raise Unavailable(f'The proved archive could not be linked: {done.stdout.decode(errors="replace").strip()}')
    for old in glob.glob(os.path.join(glob.escape(os.path.dirname(library)), '*.so')):
        os.remove(old)
    os.replace(made, library)


def _library(archive, folder):
    """The name of the shared library of an archive as it is now."""
    state = os.stat(archive)
    key = zlib.crc32(f'{os.path.realpath(archive)} {state.st_mtime_ns} {state.st_size}'.encode())
    return os.path.join(folder, f'libvirginalmimas-{key:08x}.so')


def _folders():
    """Where shared libraries are kept: in the repository, and in the user's own cache where that cannot be written."""
    cache = os.environ.get('XDG_CACHE_HOME') or os.path.join(os.path.expanduser('~'), '.cache')
    return building.FOLDER, os.path.join(cache, 'virginalmimas')


def _found(archive):
    """The shared library of an archive, None if it is still to be made."""
    return next((path for path in (_library(archive, folder) for folder in _folders()) if os.path.exists(path)), None)


def _made(archive, folder):
    library = _library(archive, folder)
    if not os.path.exists(library):
        _link(archive, library)
    return library


def _loaded(say):
    """The path of the shared library, proved and made where it is missing or old."""
    named = os.environ.get('VIRGINALMIMAS_ARCHIVE')
    archive = os.path.join(named, 'libvirginalmimas.a') if named else building.ARCHIVE
    if named and not os.path.exists(archive):
        raise Unavailable(f'VIRGINALMIMAS_ARCHIVE names a folder without libvirginalmimas.a: {named}.')
    try:
        if not named:
            building.build(say)
        own, cache = _folders()
        folder = own if os.access(own if os.path.isdir(own) else building.ROOT, os.W_OK) else cache
        return _found(archive) or building.locked(folder, lambda: _made(archive, folder))
    except OSError as error:
        raise Unavailable(f'The shared library could not be made: {(error.strerror or "").lower()}: {error.filename}.')


class Core:
    """The entries of the C interface. An answer is a pair: the fault's number (0: none), and its place or the value."""

    def __init__(self, say):
        """`say` is told what long work is under way."""
        path = _loaded(say)
        try:
            self.library = ctypes.CDLL(path)
            for name in 'read verify_mode counts_mode order check_with evaluate_with script_with answer'.split():
                getattr(self.library, 'vm_' + name).restype = ctypes.c_uint64
        except (OSError, AttributeError) as error:
            raise Unavailable(f'The shared library {os.path.relpath(path)} cannot be used: {error}.')

    def _ask(self, entry, *slices, mode=None):
        """An entry's answer on slices, each handed over as its pointer and its length; a mode comes before them."""
        arguments = [] if mode is None else [ctypes.c_uint32(mode)]
        arguments += [part for one in slices for part in (one, ctypes.c_size_t(len(one)))]
        answer = getattr(self.library, 'vm_' + entry)(*arguments)
        return answer >> 48, answer & 2 ** 48 - 1

    def read(self, words):
        """The number of slots, or the fault."""
        return self._ask('read', words32(words))

    def counts(self, words, mode=0):
        """The fault and its place, or 0 and whether anything is asked; and how many terms, temporaries and words."""
        counts = (ctypes.c_uint64 * 3)()
        number, value = self._ask('counts_mode', words32(words), counts, mode=mode)
        return number, value if number else value >> 47, tuple(counts)

    def verify(self, words, call_words, slots, mode=0):
        """The call words and the marks of an accepted list."""
        if call_words > MOST_WORDS:
            raise Unavailable(f'The calls of this design take {call_words:,} words; vm lends {MOST_WORDS:,} at most.')
        calls, recorded = (ctypes.c_uint32 * call_words)(), (ctypes.c_uint8 * slots)()
        number, place = self._ask('verify_mode', words32(words), calls, recorded, mode=mode)
        expect(number == 0, f'vm_verify_mode answered {number} at {place}')
        return calls, recorded

    def order(self, words, slots):
        """Whether an accepted list has a current loop, and the first slots of one; else of all nodes in their order."""
        lent = (ctypes.c_uint32 * slots)()
        number, value = self._ask('order', words32(words), lent)
        expect(number == 0, f'vm_order answered {number} at {value}')
        return bool(value >> 47), lent[:value & 2 ** 47 - 1]

    def script(self, calls, recorded, terms):
        """The script of calls that the verifier made."""
        tables = self._tables(len(calls), terms)
        places = (ctypes.c_uint32 * terms)()
        number, room = self._ask('script_with', calls, recorded, (ctypes.c_uint8 * 0)(), places, *tables)
        expect(number == 15, f'vm_script_with answered {number} at {room}')
        text = (ctypes.c_uint8 * room)()
        number, length = self._ask('script_with', calls, recorded, text, places, *tables)
        expect(number == 0, f'vm_script_with answered {number} at {length}')
        return bytes(text)[:length]

    def answer(self, reply, recorded):
        """The fault and its place, or 0 and 0 for unsat or 1 for sat; and after sat a trit for each slot (3: none)."""
        text, trits = (ctypes.c_uint8 * len(reply)).from_buffer_copy(reply), (ctypes.c_uint8 * len(recorded))()
        return (*self._ask('answer', text, recorded, trits), bytes(trits))

    def evaluate(self, calls, bits, terms):
        """The number of false assertions, and the number of every term, under bits for the declared names in order."""
        values, numbers = (ctypes.c_uint64 * terms)(), (ctypes.c_uint64 * len(bits))(*bits)
        number, wrong = self._ask('evaluate_with', calls, numbers, values, *self._tables(len(calls), terms))
        return number, wrong, values

    def _tables(self, words, terms):
        """Room for sorts and names: a declare takes five words, and a name nine bytes."""
        return (ctypes.c_uint8 * terms)(), (ctypes.c_uint8 * (9 * (words // 5)))()


def expect(held, said):
    """What the verifier promises; anything else is a fault of vm."""
    if not held:
        raise Unavailable(f'{said}, which vm did not expect.')


def words32(words):
    return words if isinstance(words, ctypes.Array) else (ctypes.c_uint32 * len(words))(*words)


def query(calls):
    """The terms of the obligations: the arguments of the `and` that stands before the last not, assert and check."""
    terms, at = [], len(calls) - 6
    while at >= 0 and calls[at] >> 29 == 4:
        terms.append(calls[at] & 2 ** 29 - 1)
        at -= 1
    return terms[::-1] if at >= 0 and calls[at] == 2 << 29 | 3 + 32 * len(terms) else []


def refined(calls, term):
    """The terms of the x and y bits that an obligation's old net must refine to, None if they are not found.

    Seven records in a row make the obligation (`tv_refines`), three words each but the first; the second reads x first,
    the fifth reads y last.
    """
    binary, content = 2 << 29 | 10 + 32 * 2, bytes(calls)
    record = struct.pack('=3I', 2 << 29 | 3 + 32 * 2, 4 << 29 | term - 4, 4 << 29 | term - 1) if term > 5 else None
    at = content.find(record) if record else -1
    while at % 4 and at >= 0:
        at = content.find(record, at + 1)
    place = at // 4
    if place < 17 or calls[place - 15] != binary or calls[place - 6] != binary:
        return None
    return calls[place - 14] & 2 ** 29 - 1, calls[place - 4] & 2 ** 29 - 1


def declared(script):
    """The declared names and their widths, in the order of their declarations, from a script."""
    found = re.findall(r'^\(declare-const (\S+) \(_ BitVec ([0-9]+)\)\)$', script, re.M)
    return [(name, int(width)) for name, width in found]


def progress(name='vm'):
    """A `say` that writes to standard error; passing lines only on a terminal, each over the one before."""
    state = {'open': False}

    def write(text):
        try:
            sys.stderr.write(text)
            sys.stderr.flush()
        except OSError:
            pass

    def say(sentence, passing=False):
        if passing and not sys.stderr.isatty():
            return
        line = f'{name}: {sentence}'
        if passing:
            line = line[:shutil.get_terminal_size().columns - 1]
        write(('\r\x1b[K' if sys.stderr.isatty() else '') + line + ('' if passing else '.\n'))
        state['open'] = passing

    def close():
        if state['open']:
            write('\r\x1b[K')
            state['open'] = False

    say.close = close
    return say
