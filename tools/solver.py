"""SMT-LIB solvers as commands: which are there, what one replies to a script, and the values in its reply."""
import functools
import os
import re
import shlex
import shutil
import signal
import subprocess
import tempfile
import threading
import time
from contextlib import contextmanager
from dataclasses import dataclass

from source import why

# A solver's command; the name of a script comes after it.
KNOWN = {'z3': ['z3', '-smt2'], 'cvc5': ['cvc5', '--lang=smt2']}
# Solvers that tell their version when asked with --version; other commands may do anything then.
VERSIONED = ('z3', 'cvc5', 'cvc4', 'bitwuzla', 'boolector', 'yices-smt2')
MISSING = 'No solver is on the PATH. Install one (apt-get install z3, or cvc5), or name a command with --solver.'


class NoSolver(Exception):
    """A sentence that says why no solver can be asked."""


@dataclass
class Reply:
    text: bytes
    status: int          # of the solver's process; below 0 the signal that ended it
    late: bool           # it was stopped at the time limit
    errors: str          # what it wrote to standard error
    seconds: float       # how long it took


def command(asked=None):
    """The command of the solver that is asked for, or of the first known one that is there."""
    if asked is None:
        found = next((name for name in KNOWN if shutil.which(name)), None)
        if not found:
            raise NoSolver(MISSING)
        return KNOWN[found]
    try:
        parts = shlex.split(asked)
    except ValueError as error:
        raise NoSolver(f"The solver's command cannot be read: {str(error).lower()}: {asked}")
    parts = KNOWN.get(asked, parts)
    if not parts or not shutil.which(parts[0]):
        package = f' It is a Debian package: apt-get install {asked}.' if asked in KNOWN else ''
        raise NoSolver(f"There is no command '{parts[0] if parts else asked}' on the PATH to solve with.{package}")
    return parts


@functools.lru_cache(maxsize=None)
def version(command):
    """The first line that a known solver tells of itself, None of other commands."""
    if os.path.basename(command) not in VERSIONED:
        return None
    try:
        told = subprocess.run([command, '--version'], stdin=subprocess.DEVNULL, stdout=subprocess.PIPE,
                              stderr=subprocess.DEVNULL, timeout=5).stdout.decode(errors='replace')
    except (OSError, subprocess.TimeoutExpired):
        return None
    return told.strip().partition('\n')[0] or None


@contextmanager
def _stored(script):
    """The name of a file that holds a script meanwhile."""
    try:
        file = tempfile.NamedTemporaryFile(prefix='vm-', suffix='.smt2', buffering=0)
    except OSError as error:
        raise NoSolver(f'There is no temporary folder to put the script into: {why(error)}.')
    with file:
        left = memoryview(script)
        try:
            while left:
                left = left[file.write(left):]
        except OSError as error:
            raise NoSolver(f'The script cannot be put into {file.name}: {why(error)}.')
        yield file.name


class Solvers:
    """The solver processes that run, so that all of them can be stopped."""

    def __init__(self):
        self.running, self.lock, self.stopped = set(), threading.Lock(), False

    def stop(self):
        with self.lock:
            self.stopped = True
            for process in self.running:
                _end(process)

    def reply(self, parts, script, seconds, tick=lambda seconds: None):
        """What a solver replies to a script within a time, None for any; `tick` is told of each half second."""
        with _stored(script) as name:
            return self._read(self._started(parts + [name]), seconds, tick)

    def _started(self, parts):
        """A solver's process, in a process group of its own."""
        with self.lock:
            if self.stopped:
                raise KeyboardInterrupt
            try:
                process = subprocess.Popen(parts, stdin=subprocess.DEVNULL, stdout=subprocess.PIPE,
                                           stderr=subprocess.PIPE, start_new_session=True)
            except OSError as error:
                raise NoSolver(f"The command '{parts[0]}' cannot be started: {why(error)}.")
            self.running.add(process)
            return process

    def _read(self, process, seconds, tick):
        began, late, text = time.time(), False, None
        try:
            while text is None:
                try:
                    left = began + seconds - time.time() if seconds else 1
                    text, errors = process.communicate(timeout=min(0.5, max(0.01, left)))
                except subprocess.TimeoutExpired:
                    tick(time.time() - began)
                    if seconds and time.time() - began >= seconds:
                        late = True
                        _end(process)
        finally:
            _end(process)
            with self.lock:
                self.running.discard(process)
        return Reply(text, process.returncode, late, errors.decode(errors='replace').strip(), time.time() - began)


def _end(process):
    """Ends a solver and what it started, as far as they still run."""
    try:
        os.killpg(process.pid, signal.SIGKILL)
    except (ProcessLookupError, PermissionError):
        pass


def parts_of(text):
    """A reply's first word, its first list, empty where there is none, and what comes after."""
    found = re.match(rb'\s*[^\s()]*', text)
    first, rest = found.group(), text[found.end():]
    depth = 0
    for mark in re.finditer(rb'[()]', rest):
        depth += 1 if mark.group() == b'(' else -1
        if depth == 0:
            return first, rest[:mark.end()], rest[mark.end():]
    return first, rest, b''


# A pair of a get-value's reply: a name and #b01, #x0f or (_ bv15 8).
PAIR = re.compile(rb'\(\s*([^\s()]+)\s+(#b[01]+|#x[0-9a-fA-F]+|\(\s*_\s+bv[0-9]+\s+[0-9]+\s*\))\s*\)')


def values_of(text):
    """The values of a get-value's reply by their names, None if it is no list of pairs."""
    if re.sub(rb'\s', b'', PAIR.sub(b'', text)) != b'()':
        return None
    return {name.decode(errors='replace'): _number(value.decode()) for name, value in PAIR.findall(text)}


def _number(text):
    if text.startswith('#'):
        return int(text[2:], 2 if text[1] == 'b' else 16)
    return int(re.search('bv([0-9]+)', text).group(1))
