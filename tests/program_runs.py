#!/usr/bin/env python3
# Writes the input of the crate verify_runs, and the output it must have, from tests/program_runs.txt. A case is its name and the program's input,
# each after its length in a little-endian word; its output is a line with the name and what the program writes. Scripts are the oracle's
# (oracle/build first), after the line that names a loop where the case has one; with --check the refusals and the input are compared, and the
# scripts only where the oracle is built.
import os, re, struct, subprocess, sys

os.chdir(os.path.join(os.path.dirname(os.path.abspath(__file__)), '..'))
sys.path.insert(0, 'tools')
import notation

ORACLE = 'oracle/target/oracle'


def input_of(text):
    if not text.startswith('bytes'):
        words, _ = notation.parse(text)
        return struct.pack('<%dI' % len(words), *words)
    found = b''
    for run in text.split()[1:]:
        digits, star, times = run.partition('*')
        found += bytes.fromhex(digits) * int(times or 1)
    return found


def script_of(content):
    words = struct.unpack('<%dI' % (len(content) // 4), content)
    line = ' '.join('%08x' % word for word in words) + '\n'
    return subprocess.run([ORACLE, 'script', 'divisions'], input=line.encode(), stdout=subprocess.PIPE, check=True).stdout[:-1]


def framed(content):
    return struct.pack('<I', len(content)) + content


checking = sys.argv[1:] == ['--check']
told = os.path.exists(ORACLE)
stdin, stdout = b'', b''
lines = open('tests/program_runs.txt').read().split('\n')
for number, line in enumerate(lines):
    case = re.fullmatch(r'(\w+) -> (.*)', line)
    if case:
        name, expected = case.groups()
        content = input_of(lines[number + 1])
        stdin += framed(name.encode()) + framed(content)
        stdout += b'; ' + name.encode() + b'\n'
        if expected != 'script':
            stdout += expected.encode() + b'\n'
        if expected.startswith('refused '):
            continue
        if told:
            stdout += script_of(content)
        elif not checking:
            sys.exit('tests/program_runs.py: oracle/build first')
current = True
for path, content in (('crates/verify_runs/stdin', stdin), ('crates/verify_runs/stdout', stdout)):
    if not checking:
        open(path, 'wb').write(content)
    elif told or path.endswith('stdin'):
        current = current and os.path.exists(path) and open(path, 'rb').read() == content
sys.exit(0 if current else 'tests/program_runs.txt has changed: run tests/program_runs.py')
