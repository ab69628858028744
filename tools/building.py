"""The proved archive and the program: one build for `vm` and `run`, made once, and again where a source has changed."""
import fcntl
import os
import shutil
import signal
import subprocess
import time

ROOT = os.path.dirname(os.path.dirname(os.path.abspath(__file__)))
FOLDER = os.path.join(ROOT, 'target', 'vm')
CRATES = os.path.join(ROOT, 'crates')
ARCHIVE = os.path.join(CRATES, 'virginalmimas', 'out', 'libvirginalmimas.a')
PROGRAM = os.path.join(CRATES, 'verify', 'out', 'verify')
STAMP, LOG = os.path.join(FOLDER, 'stamp'), os.path.join(FOLDER, 'build.log')
# What rt does in which crate's folder. It builds a program only to run it, here on no input.
STEPS = (('lib', 'virginalmimas'), ('run', 'verify'))


class Unavailable(Exception):
    """A sentence that says why the verifier cannot be asked."""


def _newest():
    """When a source was last changed. In a crate's folder `out` rt keeps what it makes."""
    times = [os.path.getmtime(os.path.join(ROOT, 'crates.txt'))]
    for folder, folders, names in os.walk(CRATES):
        if 'out' in folders and os.path.dirname(folder) == CRATES:
            folders.remove('out')
        times += [os.path.getmtime(os.path.join(folder, name)) for name in names]
    return max(times)


def built():
    """Whether archive and program are there and no source has changed since their making began."""
    return all(os.path.exists(path) for path in (ARCHIVE, PROGRAM, STAMP)) and _newest() < os.path.getmtime(STAMP)


def build(say):
    """Proves and builds archive and program where they are missing or old; `say` is told what is under way."""
    if built():
        return
    if not os.access(FOLDER if os.path.isdir(FOLDER) else ROOT, os.W_OK):
        raise Unavailable(f'The proved archive is not built for these sources, but you cannot write in {ROOT}.')
    locked(FOLDER, lambda: built() or _build(say))


def _build(say):
    if not shutil.which('rt'):
        with open(os.path.join(ROOT, 'toolchain.txt')) as pinned:
            kit = pinned.read().strip()
        raise Unavailable("The proved archive is not built for these sources, and 'rt', the command of the Rattle kit "
                          f'({kit}), is not on the PATH. Install the kit, or name the folder of a built archive in '
                          'VIRGINALMIMAS_ARCHIVE.')
    began = time.time()
    if os.path.exists(STAMP):   # what is cut off while it is written is then not taken for built
        os.remove(STAMP)
    say('proving the verifier and building it; the first time this takes many minutes')
    for verb, crate in STEPS:
        _run(['rt', verb], os.path.join(CRATES, crate), say, began)
    with open(STAMP, 'w'):
        pass
    os.utime(STAMP, (began, began))
    say(f'proved and built in {time.time() - began:.0f} s')


def _run(command, folder, say, began):
    """Runs a step of the build; what it started ends with it."""
    with open(LOG, 'wb') as out:
        running = subprocess.Popen(command, cwd=folder, stdout=out, stderr=subprocess.STDOUT, stdin=subprocess.DEVNULL,
                                   start_new_session=True)
        try:
            while running.poll() is None:
                time.sleep(0.2)
                say(f'proving the verifier, {time.time() - began:.0f} s: {_last_line(LOG)}', passing=True)
        finally:
            if running.poll() is None:
                os.killpg(running.pid, signal.SIGKILL)
                running.wait()
    if running.returncode != 0:
        raise Unavailable(f'The verifier was not built: {" ".join(command)} in {os.path.relpath(folder)} ended with '
                          f'status {running.returncode}. What it wrote is in {os.path.relpath(LOG)}.')


def _last_line(path):
    """The end of what is written to a file so far, for a progress line."""
    with open(path, 'rb') as file:
        file.seek(max(0, os.path.getsize(path) - 400))
        lines = file.read().decode(errors='replace').split('\n')
    return next((line.strip()[:50] for line in reversed(lines[:-1]) if line.strip()), '')


def locked(folder, work):
    """Does work in a folder, one process at a time."""
    os.makedirs(folder, exist_ok=True)
    with open(os.path.join(folder, 'lock'), 'w') as lock:
        fcntl.flock(lock, fcntl.LOCK_EX)
        return work()
