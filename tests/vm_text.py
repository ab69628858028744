#!/usr/bin/env python3
# What vm says without the proved archive and without a solver: notation with names, bad files and texts, bad arguments,
# words and faults, output that cannot be written, lines at a terminal's width. Every refusal is a sentence and has its
# exit status; there is never a traceback. Also the divisions, the modes and the order of tests/vm_working_out.py, on
# examples worked out by hand; and whether edits stand when applied, against tests/vm_applied.py.
import importlib.machinery, importlib.util, io, json, os, struct, subprocess, sys, tempfile

ROOT = os.path.dirname(os.path.dirname(os.path.abspath(__file__)))
sys.pycache_prefix = os.path.join(ROOT, 'target', 'pycache')
sys.path.insert(0, os.path.join(ROOT, 'tools'))
import applied
import checking
import design
import faults
import notation
import shown
import solver
import source
import verdict
import vm_applied
import vm_solvers
import vm_working_out

done = 0


def same(found, expected, what):
    global done
    done += 1
    if found != expected:
        sys.exit(f'tests/vm_text.py: {what}:\n  found    {found!r}\n  expected {expected!r}')


def vm(*arguments, given=b''):
    """What vm does in the folder, where there is no rt, no solver and no archive: its status and what it writes."""
    kept = sys.argv, sys.stdin, sys.stdout, sys.stderr
    streams = [io.TextIOWrapper(io.BytesIO(content), encoding='utf-8') for content in (given, b'', b'')]
    sys.argv, (sys.stdin, sys.stdout, sys.stderr) = ['vm', *arguments], streams
    try:
        status = command.main()
    except SystemExit as end:
        status = end.code
    finally:
        sys.argv, sys.stdin, sys.stdout, sys.stderr = kept
    for stream in streams:
        stream.flush()
    return status, *(stream.buffer.getvalue().decode() for stream in streams[1:])


def loaded():
    """The command as a module."""
    loader = importlib.machinery.SourceFileLoader('vm', os.path.join(ROOT, 'vm'))
    made = importlib.util.module_from_spec(importlib.util.spec_from_loader('vm', loader))
    loader.exec_module(made)
    return made


def refused(text):
    try:
        notation.parse_named(text)
    except notation.NotWord as error:
        return error.line, error.column, error.reason


def names():
    """Names stand for slots, and texts with and without them have the same words."""
    plain = '#14 #0 #1 #1, Input #4, Buf #4 s0 s1 s2 s3, Adc #4 s0*4 s4 s5 s6 s7 0, Void, #4 Not #4 s3*4, s5 s3'
    named = '''#14 #0 #1 #1            ; a comment, with a: colon
        a: Input #4, b: Buf #4 a[0..3]
        sum: Adc #4 a*4 b[0..3] 0
        gone: Void
        #b Not #4 a[3]*4
        b[1] a[3]'''
    words, places, found = notation.parse_named(named)
    same(words, notation.parse(plain)[0], 'named words')
    same((places[0], places[4], places[6], places[8]), ((1, 1), (2, 12), (2, 25), (2, 32)), 'places')
    same([found.get(slot) for slot in (0, 3, 12, 13, 14)], ['a[0]', 'a[3]', 'sum[4]', 'gone', None], 'names of slots')
    ring = notation.parse('#1 #0 #0 #0, Not #1 s0')[0]
    same(notation.parse('#1 #0 #0 #0, r: Not #1 r')[0], ring, 'a name before its cell')
    same(notation.parse('#2 #0 #0 #0, c: Input #1, Aig !c c')[0][7:9], [1 << 29 | 2, 2], 'an inverted name')


def divisions():
    """The words of the four cells, and what they give, trits highest first."""
    for operation, name in enumerate(vm_working_out.DIVISIONS, 23):
        text = f'#6 #0 #0 #1, a: Input #2, b: Input #2, q: {name} #2 a[0..1] b[0..1], q[1] a[1]'
        words = [2 << 29 | operation + 32 * 5, 3 << 29 | 2, 2, 3, 4, 5, 7, 3]
        same(notation.parse(text)[0][8:], words, f'words of {name}')
    for left, right, *given in (('1001', '0010', '0100', '0001', '1101', '1111'),
                                ('0111', '1110', '0000', '0111', '1101', '0001'),
                                ('1001', '1110', '0000', '1001', '0011', '1111'),
                                ('1000', '1111', '0000', '1000', '1000', '0000'),
                                ('1000', '0000') + ('XXXX',) * 4, ('0000', '0000') + ('XXXX',) * 4,
                                ('000X', '0001') + ('XXXX',) * 4, ('0110', 'X001') + ('XXXX',) * 4):
        for name, expected in zip(vm_working_out.DIVISIONS, given):
            found = vm_working_out.divide(name, list(reversed(left)), list(reversed(right)))
            same(''.join(reversed(found)), expected, f'{name} of {left} by {right}')


def modes():
    """The obligations of a list with every kind of edit, in both modes, and what they are in a case worked out by hand.

    At a clock edge with d = 1 and e = 0, where all flip-flops were 0: a, b and added are 1 now, other is 0; n, the Not of
    a as it was, is 1. Pairs: b by a, as in the twins; other by added, whose data differ; n by added, which is no pair of
    flip-flops; void by a as it was, an assertion; e by itself, none.
    """
    text = """#9 #1 #2 #5
        clk: Input #1, d: Input #1, e: Input #1
        a: Dff #1 #0 clk 0 0 1 d X X
        b: Dff #1 #0 clk 0 0 1 d X X
        other: Dff #1 #0 clk 0 0 1 e X X
        n: Not #1 a
        void: Void, note: Note
        added: Dff #1 #0 clk 0 0 1 d X X
        #b Dff #1 #0 clk 0 0 1 d X X
        #n Not #1 b
        e e, b a, other added, n added, void a"""
    new, read = 'flip-flop {} replaced by flip-flop {}: new state against new state', '{} replaced by {}, as it is read'
    for mode in (0, 1):
        words, _, names = notation.parse_named(text)
        result = verdict.Result('-', words=words, names=names, mode=mode)
        design.fill(result)
        told = ['b replaced by Dff #1 #0 clk 0 0 1 d X X', 'n replaced by Not #1 b']
        for pair in (('b', 'a'), ('other', 'added')):
            told += [new.format(*pair)] + [read.format(*pair)] * (mode == 0)
        told.append('n replaced by added')
        same([edit for _, edit in design.obligations(result)], told, f'the obligations in mode {mode}')
        same(design.joined(result), 2, 'pairs of flip-flops')
        worked = vm_working_out.Design(result)
        was = dict.fromkeys(range(10), '0')
        now = worked.worked_out({0: '1', 1: '1', 2: '0', 8: '0'}, was)
        same(''.join(now[slot] for slot in (3, 4, 5, 6, 7, 9)), '110101', 'a, b, other, n, void and added')
        # The cells; b and a now, and in mode 0 b now and a as it was; other and added, which is read now; n and added.
        states = [True, True, True, False, False, False, True] if mode == 0 else [True, True, True, False, True]
        same(worked.obligations(now, was), states, f'what they are in mode {mode}')


def orders():
    """The order of the nodes by first slot, or the loop that is named, and how a loop is told."""
    for text, looped, slots, what in vm_working_out.ORDERS:
        result = verdict.Result('-', words=notation.parse(text)[0])
        design.fill(result)
        same(vm_working_out.Design(result).order(), (looped, slots), what)
    result = verdict.Result('-', names={0: 'a', 2: 'b[0]', 3: 'b[1]'})
    same((result.looped, result.cell_text(2), result.cell_text(4)), (None, 'b', 's4'), 'a loop that is not known')
    first = 's4 reads s5, s5 reads s6, s6 reads s7, s7 reads s8, '
    for loop, told in (([0], 'a reads itself'), ([0, 2], 'a reads b, b reads a'),
                       ([4, 0, 2], 's4 reads a, a reads b, b reads s4'),
                       (list(range(4, 10)), first + 's8 reads s9, s9 reads s4'),
                       (list(range(4, 11)), first + 'and 3 more reads lead back to s4')):
        result.loop = loop
        same((result.looped, design.loop_text(result)), (True, told), f'the loop {loop}')


def bad_texts():
    for text, line, column, part in (
            ('#0,\nNott #1', 2, 1, "Is it 'Not'?"),
            ('#1 #0 #0 #0\n  a: Input #1\n  a: Input #1', 3, 3, 'given twice; the first is at line 2'),
            ('a:Input #1', 1, 1, "'a: Input'"),
            ('s0: Input #1', 1, 1, 'cannot be the name'),
            ('Not: Input #1', 1, 1, 'cannot be the name'),
            ('a:', 1, 1, 'its cell must stand'),
            ('a: #3', 1, 1, 'its cell must stand'),
            ('#2 #0 #0 #0, a: Input #2, Buf #1 a[2]', 1, 34, 'its last is a[1]'),
            ('#2 #0 #0 #0, a: Input #2, Buf #2 a[1..0]', 1, 34, 'runs downwards'),
            ('#1 #0 #0 #0, Not #1 b', 1, 21, 'no cell has this name'),
            ('0*x', 1, 1, 'how often'), ('0*99999', 1, 1, 'how often'),
            ('#0 é', 1, 4, 'no word of the notation'), ('#536870912', 1, 1, 'no word')):
        found = refused(text)
        same(found and found[:2], (line, column), text)
        same(part in found[2], True, f'{text}: {found[2]}')


def both_ways():
    """Any words are shown and read back, each record on a line, comments and all."""
    state = 1
    for _ in range(300):
        words = []
        for _ in range(state % 23):
            state = state * 1103515245 + 12345 & 0x7fffffff
            words.append((state >> 3 & 7) << 29 | (state >> 7) % (40 if state & 64 else 2 ** 29))
        state = state * 1103515245 + 12345 & 0x7fffffff
        result = verdict.Result('-', words=words)
        same(notation.parse('\n'.join(shown.listing(result)))[0], words, f'shown and read back: {words}')


def files():
    """Bad files and texts: a sentence, the place, carets, and status 2."""
    write('good.txt', b'#2 #0 #0 #1\r\n; caf\xc3\xa9\r\nin: Input #1\r\nnot1: Not #1 in, not1 in\r\n')
    write('bad.txt', b'#2 #0 #0 #1\n\tInput #1, Nott #1 s0\n')
    write('latin.txt', b'; caf\xe9\n')
    write('wide.txt', '#0'.encode('utf-16'))
    write('five.words', b'\0\0\0\x60\0')
    write('long.txt', b' ' * (source.MOST_BYTES + 1))
    write('control.txt', b'\x1b[31m')
    os.makedirs('none')
    for name, part in (('bad.txt', "bad.txt, line 2, column 12: 'Nott' is no word"), ('latin.txt', 'byte 5'),
                       ('wide.txt', 'UTF-16'), ('five.words', 'middle of a word'), ('long.txt', 'more than'),
                       ('none', 'No file of this'), ('gone', 'There is no such file.'),
                       ('control.txt', 'line 1, column 1')):
        status, out, err = vm('check', name)
        same((status, out, part in err), (2, '', True), f'check {name}: {err}')
        same('\x1b' in err, False, f'{name}: what it holds moves the cursor')
        same(vm('show', name)[0], 2, f'show {name}')
    lines = vm('check', 'bad.txt')[2].split('\n')
    same(lines[1:3], ['    \tInput #1, Nott #1 s0', '    \t          ^^^^'], 'carets')
    source.open = forbidden
    same(vm('check', 'good.txt')[::2], (2, 'vm: good.txt: You are not allowed to read this file.\n'), 'no permission')
    del source.open
    status, out, err = vm('check', 'bad.txt', '--json')
    same((status, '"line": 2' in out, '"verdict": "NOT CHECKED"' in out), (2, True, True), 'JSON of a bad text')
    same(['"mode": 1' in vm('check', 'bad.txt', '--json', *more)[1] for more in ((), ('--mode', '1'))], [False, True],
         'the mode in JSON')
    for names, parts in ((('good.txt', 'none'), ('libvirginalmimas.a', 'No file of this')), (('none',), ('No file of this',)),
                         (('good.txt',), ('libvirginalmimas.a',)), (('gone', 'bad.txt'), ('no such file', 'Nott'))):
        status, out, err = vm('check', '--json', *names)
        told = json.loads(out)
        same((status, told['status'], err, [one['source'] for one in told['designs']]), (2, 2, '', list(names)),
             f'JSON of {names}')
        same([part in one['sentences'][0] for one, part in zip(told['designs'], parts)], [True] * len(parts), f'why: {told}')


def spared():
    """A design is not written over, whatever it is called; - is standard output."""
    before = open('good.txt', 'rb').read()
    os.symlink('good.txt', 'link.txt')
    os.link('good.txt', 'hard.txt')
    write('page.html', before)
    for arguments in (('report', 'good.txt', '-o', 'good.txt'), ('report', 'link.txt', '-o', 'good.txt'),
                      ('report', 'good.txt', '-o', './hard.txt'), ('words', 'good.txt', '-o', 'link.txt'),
                      ('report', 'page.html')):
        status, out, err = vm(*arguments)
        same((status, out, 'would be lost' in err), (2, '', True), f'{arguments}: {err}')
    with open('good.txt', 'rb') as file:
        ran = subprocess.run([sys.executable, VM, 'words', '-', '-o', 'good.txt'], stdin=file, capture_output=True)
    same((ran.returncode, b'would be lost' in ran.stderr), (2, True), 'words of standard input over its file')
    same([open(name, 'rb').read() for name in ('good.txt', 'page.html')], [before] * 2, 'the design after all that')
    by_name, packed = vm('words', 'good.txt', '-o', '-'), vm('words', 'good.txt')
    same((by_name, os.path.exists('-')), (packed, False), 'words to standard output')


def written():
    """Output that cannot be written is said so, with status 2."""
    for arguments in (('explain',), ('show', 'good.txt'), ('words', 'good.txt'), ('--help',), ('check', '--help'),
                      ('check', '--json', 'none')):
        with open('/dev/full', 'wb') as full:
            ran = subprocess.run([sys.executable, VM, *arguments], stdout=full, stderr=subprocess.PIPE)
        same((ran.returncode, ran.stderr), (2, b'vm: The output cannot be written: no space left on device.\n'),
             f'{arguments} to a full device')
    with open('/dev/full', 'wb') as full:
        ran = subprocess.run([sys.executable, VM, 'show', 'gone'], stdout=subprocess.PIPE, stderr=full)
    same((ran.returncode, ran.stdout), (2, b''), 'a sentence that cannot be written')


def widths():
    """Lines are broken between words at the width that COLUMNS says, and nothing is lost."""
    for arguments in (('explain',), ('explain', '4', '12', '20'), ('--help',), ('check', 'bad.txt'), ('check', 'good.txt')):
        whole = vm(*arguments)
        os.environ['COLUMNS'] = '60'
        status, out, err = vm(*arguments)
        del os.environ['COLUMNS']
        if '--help' not in arguments:   # argparse breaks its own text at 80 columns at the most
            same((status, out.split(), err.split()), (whole[0], whole[1].split(), whole[2].split()), f'{arguments} at 60')
        long = [line for line in (out + err).split('\n') if len(line) > 60 and len(line.split()) > 1]
        same(long, [], f'long lines of {arguments} at 60 columns')
    same(shown.wrapped('one two-three four', 9, '  ', '    '), ['  one', '    two-three', '    four'], 'broken lines')
    same(shown.table([['a', 'one two three four five six']], '', 23), ['a  one two three four', '   five six'], 'a broken row')
    same(shown.table([['a' * 10, 'one two three four']], '', 24), ['a' * 10, '    one two three four'], 'a narrow table')


def standing():
    """Whether edits stand when applied: the study's lists, others, and random designs against a second rendering."""
    lists = [(text, modes, what) for text, modes, what in vm_applied.LISTS + vm_applied.MORE]
    lists += [(text, modes, '') for text, modes in vm_applied.STANDING]
    for text, modes, what in lists:
        for mode in modes:
            same(failing(notation.parse(text)[0], mode), set(what.split()), f'what is against {text} in mode {mode}')
    found = set()
    for maker in (vm_solvers.Maker, vm_solvers.Twins, vm_solvers.Tangled):
        for seed in range(1, 151):
            words = maker(seed).words()
            found |= {what for mode in (0, 1) for what in failing(words, mode)}
    same(found - {'circle'}, {'loop', 'a', 'b', 'c', 'd'}, 'what is against some of the random designs')
    text = '#6 #0 #0 #1, clk: Input #1, nq: Not #1 q, q: Dff #1 #0 clk 0 0 1 nq X X, div: Buf #1 q, d: Input #1, ' \
           'r: Dff #1 #0 div 0 0 1 d X X, div q'
    words, _, names = notation.parse_named(text)
    result = verdict.Result('-', words=words, names=names)
    design.fill(result)
    result.reasons = applied.Edits(result).reasons()
    same(checking.reasons(result), ["Applied, the edit 'div q' does not stand, since clock div is replaced by flip-flop q: "
                                    'its edges come a step earlier. Leave div as it is, and replace its other readers one '
                                    'by one by cells that read q.'], 'a divided clock')
    result.reasons *= 9
    same(checking.reasons(result)[-1], '4 more reasons of this kind.', 'many reasons')


def failing(words, mode):
    """What is against the edits of a list, the same by both renderings."""
    result = verdict.Result('-', words=words, mode=mode)
    design.fill(result)
    ours, theirs = applied.Edits(result), vm_applied.Edits(result)
    told = ', '.join(notation.show(words))
    same(bool(ours.circle), theirs.circular(), f'a circle of {told}')
    if ours.circle:
        return {reason.condition for reason in ours.reasons()}
    made = verdict.Result('-', words=ours.words(), mode=mode)
    design.fill(made)
    order = vm_working_out.Design(made).order()
    same(order, vm_working_out.Design(theirs.applied()).order(), f'the order of {told}, applied')
    found = {reason.condition for reason in ours.reasons()}
    same(found, theirs.failing(), f'the conditions of {told} in mode {mode}')
    if order[0] and not vm_working_out.Design(result).order()[0]:
        same(ours.looped(order[1]).edits != [], True, f'the edits of the loop of {told}')
    return found | {'loop'} if order[0] else found


def commands():
    words, _ = notation.parse('#2 #0 #0 #1, Input #1, Not #1 s0, s1 s0')
    packed = struct.pack(f'<{len(words)}I', *words)
    same(vm('words', 'good.txt', '-o', 'good.words')[0], 0, 'words')
    same(open('good.words', 'rb').read(), packed, 'the words of a text')
    same(vm('words', '--hex', 'good.words')[1].split('\n')[1], '40000035 60000001', 'words in hexadecimal')
    same(vm('show', '-', given=packed)[1].split('\n')[2], 'Not #1 s0    ; s1', 'show of words')
    same(vm('words', 'good.txt', '-o', 'none/x/y')[0], 2, 'words that cannot be written')
    for number in faults.FAULTS:
        same(shown.explained(number).startswith(f'Fault {number}: '), True, f'explain {number}')
    same(vm('explain', '1', '20')[0], 0, 'explain two')
    same(vm('explain')[1].count('\n'), len(faults.FAULTS), 'explain')
    good = ('check', 'good.txt')
    same(vm('explain', '23')[0], 0, 'explain 23')
    for arguments in ((), ('check',), ('explain', '21'), ('explain', '22'), ('explain', '24'), ('explain', 'x'), ('nothing',),
                      good + ('--jobs', '0'), good + ('--timeout', '-1'), good + ('--timeout', 'nan'),
                      good + ('--solver', '"'), ('show', 'good.txt', '--mode', '1'), ('words', 'good.txt', '--mode', '0'),
                      ('order',), ('order', 'bad.txt'), ('order', 'good.txt', '--mode', '0'), ('order', 'good.txt', 'good.txt')):
        same(vm(*arguments)[0], 2, f'vm {arguments}')
    for named in ('check', 'report', 'script'):
        for mode in ('2', '-1', '10', 'Inductive', ''):
            status, out, err = vm(named, 'good.txt', '--mode=' + mode)
            same((status, out, f"'{mode}' is no mode" in err), (2, '', True), f'{named} --mode={mode}: {err}')
    status, helped, _ = vm('check', '--help')
    same((status, [number for number in range(9) if f'  {number}  ' in helped]), (0, list(range(9))), 'check --help')
    same([status for status, _ in command.STATUSES[:-1]], verdict.STATUS_ORDER, 'the statuses from best to worst')
    same(sorted(verdict.STATUS.values()), sorted(verdict.STATUS_ORDER), 'a status for each verdict')
    for arguments in (good, ('script', 'good.txt'), good + ('bad.txt',), ('report', 'good.txt'), good + ('--mode', '1'),
                      ('order', 'good.txt'),
                      ('script', 'good.txt', '--mode', 'inductive'), ('report', 'good.txt', '--mode', 'ported')):
        status, _, err = vm(*arguments)
        same((status, 'libvirginalmimas.a' in err), (2, True), f'{arguments} without an archive: {err}')
    status, _, err = vm(*good, '--solver', 'z3')
    same((status, 'apt-get install z3' in err), (2, True), f'a missing solver: {err}')


def replies():
    """The parts of a reply, and the values in it."""
    first, second = b'\n((a #b0))', b'\n((b #x0f) (c (_ bv3 8)))\n'
    same(solver.parts_of(b'sat' + first + second), (b'sat', first, second), 'parts')
    same(solver.parts_of(b'unsat\n'), (b'unsat', b'\n', b''), 'a reply without a list')
    same(solver.values_of(b'((b #x0f) (c (_ bv3 8))\n (d #b101))'), {'b': 15, 'c': 3, 'd': 5}, 'values')
    for text in (b'', b'(error "no")', b'((a true))', b'((a #b2))'):
        same(solver.values_of(text), None, f'no values: {text}')


def forbidden(*arguments):
    raise PermissionError


def write(name, content):
    with open(name, 'wb') as file:
        file.write(content)


VM = os.path.join(ROOT, 'vm')
command = loaded()
os.environ.update(PATH='', VIRGINALMIMAS_ARCHIVE='/nowhere', VM_TRACE='1')
with tempfile.TemporaryDirectory() as folder:
    os.chdir(folder)
    for group in (names, divisions, modes, orders, bad_texts, both_ways, files, commands, replies, spared, written, widths,
                  standing):
        group()
print(f'vm without an archive: {done} tests passed')
