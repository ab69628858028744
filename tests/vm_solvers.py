#!/usr/bin/env python3
# Random accepted designs through z3 and cvc5: no error line, both agree, every reply reads back, the evaluator confirms
# every example, working out from an example's sources gives the example, and where sources are few the verdict is that
# of trying all of them; a current loop is found exactly where working out ends early, and the order of the nodes, or the
# loop that is named, is that of document 02. Edits that keep every obligation HOLD exactly where they stand when applied by
# a second rendering; then the design and its applied netlist are run side by side, and do not part. All this in both modes
# where flip-flops are joined; elsewhere the calls of the modes are the same. Before them, divisions of constants give what
# working out does; after them come as many designs with merged flip-flops, and five times as many with many loops, of
# which the order alone is asked.
#
#   tests/vm_solvers.py [COUNT [SEED]]      1,000 designs from seed 1
import itertools, os, random, sys, time

ROOT = os.path.dirname(os.path.dirname(os.path.abspath(__file__)))
sys.pycache_prefix = os.path.join(ROOT, 'target', 'pycache')
sys.path[:0] = [os.path.join(ROOT, 'tools'), os.path.join(ROOT, 'tests')]
import checking
import core
import design
import notation
import solver
import vm_applied
from verdict import BROKEN, HOLDS, INDUCTIVE, LOOP, NOTHING_ASKED, ONE_STEP, PORTED, Result
from vm_working_out import DIVISIONS, Design, divide

FEW = 3 ** 6
RUNS, STEPS = 20, 12   # of a design beside its applied netlist
CONSTANT_RUNS = ('clear value', 'reset value')
CONTROLS = ('clock', 'clear', 'reset', 'enable')


class Maker:
    """Makes an accepted design at random."""
    ahead = 0.015   # how often a net may be of any slot

    def __init__(self, seed):
        self.random = random.Random(seed)
        self.base = self.random.randint(2, 9)
        self.added = self.random.choice((0, 0, 1, 3, 5))
        self.total, self.voids = self.base + self.added, set()

    def constant(self):
        return self.random.choice('01X')

    def net(self, below):
        """A net of an earlier slot, or seldom of any; a constant at times."""
        most = self.total if self.random.random() < self.ahead else below
        slots = [slot for slot in range(most) if slot not in self.voids]
        return f's{self.random.choice(slots)}' if slots and self.random.random() < 0.85 else self.constant()

    def cell(self, operation, room, below):
        """The record of a cell whose outputs take at most `room` slots, and its width."""
        kinds, runs = design.LAYOUTS[operation]
        pick = self.random.randint
        numbers = {'n': pick(1, max(1, min(3, room - (operation == 'Adc')))), 'm': pick(0, 3), 'stride': pick(0, 3),
                   'k': pick(1, max(1, min(3, room))), 'reset over enable': pick(0, 1)}
        numbers['u'] = pick(0, numbers['n'])
        numbers['offset'] = pick(0, numbers['n'] - numbers['u'])
        words = [operation] + [f'#{numbers[kind]}' for kind in kinds]
        for role, many in runs:
            for _ in range(numbers.get(many, many)):
                words.append(self.constant() if role in CONSTANT_RUNS else self.pin(operation, role, below))
        if operation == 'Match':
            for _ in range(numbers['k']):
                alternates = pick(0, 2)
                words += [f'#{alternates}'] + [self.constant() for _ in range(alternates * numbers['n'])]
        text = ' '.join(words)
        parsed = notation.parse('#0 #0 #0 #0, ' + text)[0]
        return text, notation.output_width(parsed, 4)

    def pin(self, operation, role, below):
        """A net for a place of a cell; controls are inverted at times, and a Dff's are often plain."""
        inverted = operation in ('Aig', 'Dff') and role in CONTROLS + ('left', 'right') and self.random.random() < 0.25
        if operation == 'Dff' and role in ('clear', 'reset', 'enable') and self.random.random() < 0.6:
            return '1' if role == 'enable' else '0'
        return '!' * inverted + self.net(below)

    def run(self, start, end, weights):
        """Cells for the slots from start to end."""
        records, at = [], start
        while at < end:
            operation = self.random.choices(*zip(*weights))[0]
            text, width = self.cell(operation, end - at, at)
            if max(1, width) <= end - at:
                if operation == 'Void' and start == 0:
                    self.voids.add(at)
                records.append((at, text, width))
                at += max(1, width)
        return records

    def words(self):
        weights = [(name, 3) for name in notation.OPERATIONS] + [('Input', 12), ('Dff', 6), ('Mux', 3)]
        weights = [(name, 0.4 if name in ('Void', 'Note', 'IoBuf') else weight) for name, weight in weights]
        base = self.run(0, self.base, weights)
        added = self.run(self.base, self.total, [(name, weight) for name, weight in weights if name != 'Input'])
        added = self.copies(base, added)
        edits = self.cell_edits(base)
        pairs = self.net_edits(base, added)
        if not edits and not pairs and self.random.random() < 0.8:
            pairs = [f's{self.random.randrange(self.base)} {self.net(self.total)}']
        head = f'#{self.base} #{self.added} #{len(edits)} #{len(pairs)}'
        return notation.parse('\n'.join([head] + [text for _, text, _ in base + added] + edits + pairs))[0]

    def copies(self, base, added):
        """The added cells, some of them made copies of cells of the base of the same width."""
        made = []
        for slot, text, width in added:
            same = [other for _, other, wide in base
                    if wide == width and not other.startswith(('Input', 'Void', 'IoBuf'))]
            made.append((slot, self.random.choice(same) if same and self.random.random() < 0.5 else text, width))
        return made

    def cell_edits(self, base):
        edits = []
        for slot, text, width in base:
            if text.startswith(('Void', 'Input')) or self.random.random() < 0.7:
                continue
            if width and not text.startswith('Note') and self.random.random() < 0.6:
                edits.append(f'#{slot} {self.turned(text)}')
            elif width:
                edits += [f'#{slot} {new}' for new in self.other(width, slot)]
        return edits

    def other(self, width, slot):
        """Another cell of a width, if one is met."""
        operations = [name for name in notation.OPERATIONS if name not in ('Void', 'Input', 'Note')]
        made = [self.cell(self.random.choice(operations), width, slot) for _ in range(10)]
        return [text for text, wide in made if wide == width][:1]

    def turned(self, text):
        """The same cell, with its operands turned round where this changes nothing."""
        words = text.split()
        if words[0] in ('And', 'Or', 'Xor', 'Mul', 'Eq'):
            n = int(words[1][1:])
            return ' '.join(words[:2] + words[2 + n:] + words[2:2 + n])
        return text

    def net_edits(self, base, added):
        pairs, copied = [], {text: slot for slot, text, width in added if width}
        for slot, text, width in base:
            for at in range(slot, slot + max(1, width)):
                if self.random.random() < 0.85 and not (text in copied and self.random.random() < 0.7):
                    continue
                copy = copied.get(text)
                to = f's{copy + at - slot}' if copy is not None and self.random.random() < 0.8 else self.net(self.total)
                pairs.append(f's{at} {to}')
        return pairs


class Twins(Maker):
    """Makes a design with two flip-flops of the base, the same or nearly, the second merged into the first."""

    def __init__(self, seed):
        super().__init__(seed)
        self.first, self.width = self.random.randint(2, 4), self.random.choice((1, 1, 2))
        self.second = self.first + self.width
        self.after = self.second + self.width
        self.base = self.after + self.random.randint(0, 3)
        self.added = self.random.choice((0, 0, self.width))
        self.total = self.base + self.added

    def words(self):
        weights = [(name, 1) for name in notation.OPERATIONS if name not in ('Void', 'Note')] + [('Input', 20)]
        base = [(0, 'Input #1', 1)] + self.run(1, self.first, weights)
        one = self.flip_flop()
        texts = [self.placed(one, self.first), self.placed(self.nearly(one), self.second)]
        base += list(zip((self.first, self.second), texts, (self.width, self.width)))
        base += self.run(self.after, self.base, weights[:-1])
        added = [(self.base, texts[0], self.width)] if self.added else []
        edits = [f'#{slot} {self.reading_first(text)}' for slot, text, _ in base
                 if slot >= self.after and self.reading_first(text) != text and self.random.random() < 0.8]
        pairs = self.merged()
        head = f'#{self.base} #{self.added} #{len(edits)} #{len(pairs)}'
        return notation.parse('\n'.join([head] + [text for _, text, _ in base + added] + edits + pairs))[0]

    def flip_flop(self):
        """The words of a Dff of the pair's width; its data may be its own slots, or what the cells after it give."""
        width = None
        while width != self.width:
            text, width = self.cell('Dff', self.width, self.first)
        words = text.split()
        if self.random.random() < 0.8:
            words[3] = 's0'
        for at in range(width):
            feed = self.random.random()
            if feed < 0.2:
                words[7 + at] = f'own{at}'
            elif feed < 0.6 and self.after < self.base:
                words[7 + at] = f's{self.random.randrange(self.after, self.base)}'
        return words

    def nearly(self, words):
        """The same Dff, at times with another net, an inverted control or another value."""
        words = list(words)
        if self.random.random() < 0.3:
            at = self.random.randrange(3, len(words))
            net = self.net(self.first) if at < 7 + self.width else self.constant()
            words[at] = words[at][1:] if words[at][0] == '!' else '!' * (at < 7) + net
        return words

    def placed(self, words, slot):
        """The record of a Dff at a slot."""
        return ' '.join(f's{slot + int(word[3:])}' if word.startswith('own') else word for word in words)

    def reading_first(self, text):
        """A cell with the first flip-flop in place of the second."""
        slots = {f's{self.second + at}': f's{self.first + at}' for at in range(self.width)}
        return ' '.join(slots.get(word, word) for word in text.split())

    def merged(self):
        """The second flip-flop's nets by the first's, at times the first's by an added one's, and other pairs."""
        pairs, chance = [], self.random.random
        for at in range(self.width):
            if self.added and chance() < 0.5:
                pairs.append((self.first + at, f's{self.base + at}'))
            if chance() < 0.9:
                pairs.append((self.second + at, f's{self.first + at}' if chance() < 0.9 else self.net(self.total)))
        pairs += [(slot, self.net(self.total)) for slot in range(self.after, self.base) if chance() < 0.1]
        return [f's{slot} {to}' for slot, to in sorted(pairs)]


class Tangled(Maker):
    """Makes a design whose cells often read ahead, with replaced Voids and cells without an output: most have loops."""
    ahead = 0.1

    def __init__(self, seed):
        super().__init__(seed)
        self.base, self.added = self.random.randint(2, 40), self.random.choice((0, 4, 12))
        self.total = self.base + self.added

    def cell(self, operation, room, below):
        if operation == 'Void' or self.random.random() < 0.9:
            return super().cell(operation, room, below)
        net = self.net(below)
        return self.random.choice((f'Assign #0 #0 #0 {net}', f'Match #1 #0 {net} {net}', f'Dff #0 #0 {net} 0 0 1')), 0

    def pin(self, operation, role, below):
        """A Dff's clock may be a Void of the base."""
        if self.voids and operation == 'Dff' and role == 'clock' and self.random.random() < 0.5:
            return f's{self.random.choice(sorted(self.voids))}'
        return super().pin(operation, role, below)

    def words(self):
        weights = [(name, 2) for name in notation.OPERATIONS] + [('Input', 6)]
        base = self.run(0, self.base, weights)
        added = self.run(self.base, self.total, weights[:-1] + [('Void', 12)])
        pairs = [f's{slot} {self.net(self.total)}' for slot, text, _ in base + added
                 if self.random.random() < (0.8 if text == 'Void' else 0.1)]
        head = f'#{self.base} #{self.added} #0 #{len(pairs)}'
        return notation.parse('\n'.join([head] + [text for _, text, _ in base + added] + pairs))[0]


def sources(result, worked):
    """The given trits that the script names: (age, slot)."""
    named = [name for name, _ in core.declared(result.script) if name.endswith('x') and name[0] in 'np']
    return [('was' if name[0] == 'p' else 'now', int(name[1:-1])) for name in named
            if name[0] == 'p' or worked.source(int(name[1:-1]))]


def filled(worked, chosen):
    """Two tables of given trits; those that the script does not name are 0."""
    now = {slot: '0' for slot in worked.owner if worked.source(slot)}
    was = {slot: '0' for slot in worked.owner}
    for (age, slot), trit in chosen:
        (now if age == 'now' else was)[slot] = trit
    return now, was


def tried(worked, given):
    """Whether some choice of the sources breaks an obligation, by working out; None with a current loop."""
    for choice in itertools.product('01X', repeat=len(given)):
        now, was = filled(worked, zip(given, choice))
        if any(was[a] != was[b] for a, b in worked.joined):
            continue
        now = worked.worked_out(now, was)
        if now is None:
            return None
        if not all(worked.obligations(now, was)):
            return True
    return False


def example_fits(worked, result, given):
    """Whether working out from an example's sources gives its trits and its obligations; None with a current loop."""
    now, was = filled(worked, [((age, slot), getattr(result.trits[slot], age)) for age, slot in given])
    now = worked.worked_out(now, was)
    if now is None:
        return None
    fits = all(trit.now in (None, now[slot]) for slot, trit in result.trits.items())
    for one in result.obligations:
        edit = result.replacements[one.replacement]
        if edit.kind == 'cell' and one.state is False:
            fits = fits and one.shown.endswith(f'the new one {"".join(reversed(worked.rule(edit.cell, now, was)))}')
    return fits and worked.obligations(now, was) == [one.state for one in result.obligations]


class Watched(solver.Solvers):
    """Solvers whose replies may have no error line, but where unsat leaves no values to ask for."""

    def reply(self, parts, script, seconds, tick=None):
        reply = super().reply(parts, script, seconds)
        if b'error' in reply.text and not reply.text.startswith(b'unsat'):
            raise SystemExit(f'{parts[0]}: {reply.text.decode(errors="replace")[:500]}')
        return reply


def divisions():
    """Designs of constants divided, each output replaced by the constant that it must be, and that by the output."""
    for operation, (n, trits) in itertools.product(DIVISIONS, ((1, '01X'), (2, '01X'), (3, '01'))):
        operands = [list(operand) for operand in itertools.product(trits, repeat=n)]
        for left in operands:
            cells, pairs = [], []
            for at, right in enumerate(operands):
                first = 2 * n * at
                cells.append(' '.join([operation, f'#{n}'] + left + right))
                cells.append(' '.join(['Buf', f'#{n}'] + divide(operation, left, right)))
                pairs += [f's{slot} s{slot + n}' for slot in range(first, first + n)]
                pairs += [f's{slot + n} s{slot}' for slot in range(first, first + n)]
            head = f'#{2 * n * len(operands)} #0 #0 #{len(pairs)}'
            yield f'{operation} of {"".join(reversed(left))}', notation.parse('\n'.join([head] + cells + pairs))[0]


def main(count=1000, seed=1):
    verifier, solvers = core.Core(core.progress('solvers')), Watched()
    checkers = [checking.Checker(verifier, lambda name=name: [solver.command(name)], 60, solvers)
                for name in ('z3', 'cvc5')]
    held = {}
    for what, words in divisions():
        results = [checker.check(Result(what, words=words)) for checker in checkers]
        judge(what, results, held)
        ordered(what, results[0], verifier, held)
    print(f'solvers: {held[ONE_STEP]} designs of divided constants, replaced in a circle, hold for one step')
    for maker, what in ((Maker, 'designs'), (Twins, 'designs with merged flip-flops')):
        tallies, began = ({}, {}), time.time()
        for at in range(seed, seed + count):
            in_both_modes(f'{what}, seed {at}', accepted(maker, at, verifier), checkers, tallies)
            if sys.stderr.isatty():
                print(f'\r{at - seed + 1} of {count}', end='', file=sys.stderr)
        print(f'solvers: {count} {what} in {time.time() - began:.0f} s')
        for mode, tally in enumerate(tallies):
            print(f'  mode {mode}: {counted(tally)}')
    tally = {}
    for at in range(seed, seed + 5 * count):
        result = Result('-', words=accepted(Tangled, at, verifier))
        design.fill(result)
        checking.order(verifier, result)
        ordered(f'designs with many loops, seed {at}', result, verifier, tally)
    print(f'solvers: {5 * count} designs with many loops: {counted(tally)}')


def in_both_modes(what, words, checkers, tallies):
    """Judges a design in the ported mode, and in the inductive one where flip-flops are joined."""
    ported = [checker.check(Result(what, words=words)) for checker in checkers]
    judge(what, ported, tallies[PORTED])
    ordered(what, ported[0], checkers[0].verifier, tallies[PORTED])
    if not design.joined(ported[0]):
        asked = [[list(part) for part in checking.verify(checkers[0].verifier, Result(what, words=words, mode=mode))]
                 for mode in (PORTED, INDUCTIVE)]
        if asked[0] != asked[1]:
            raise SystemExit(f'{what}: no flip-flops are joined, but the modes differ: {", ".join(notation.show(words))}')
        return
    inductive = [checker.check(Result(what, words=words, mode=INDUCTIVE)) for checker in checkers]
    judge(what, inductive, tallies[INDUCTIVE])
    told = ported[0].verdict, inductive[0].verdict
    if told[0] in (HOLDS, ONE_STEP, LOOP) and told[1] == BROKEN:
        raise SystemExit(f'{what}: {told[0]} in mode 0 but not in mode 1: {", ".join(notation.show(words))}')
    if told == (BROKEN, HOLDS):
        note(tallies[INDUCTIVE], 'BROKEN in mode 0, HOLDS here')


def accepted(maker, seed, verifier):
    """The words of an accepted design; one that reads a Void further on is made anew."""
    for again in range(20):
        words = maker(seed + again * 10 ** 9).words()
        number, place = verifier.read(words)
        if number != 10:
            break
    if number:
        raise SystemExit(f'seed {seed}: refused {number} at {place}: {", ".join(notation.show(words))}')
    return words


def ordered(at, result, verifier, tally):
    """Holds the verifier's order of the nodes, or the loop that it names, to a second rendering of document 02."""
    found, expected = verifier.order(result.words, result.base + result.added), Design(result).order()
    if found != expected or result.loop != (expected[1] if expected[0] else []):
        raise SystemExit(f'{at}: the order is {found}, not {expected}: {", ".join(notation.show(result.words))}')
    length = len(result.loop)
    note(tally, 'with an order' if not length else 'with a loop of one' if length == 1 else 'with a loop of more')


def judge(at, results, tally):
    """Holds two results of a design to each other and to working out."""
    first, second = results
    text = ', '.join(notation.show(first.words))
    told = first.verdict, second.verdict
    if told[0] != told[1] or first.verdict not in (HOLDS, ONE_STEP, LOOP, BROKEN, NOTHING_ASKED):
        raise SystemExit(f'{at}: {told}, {first.sentences}, {second.sentences}: {text}')
    if len(design.obligations(first)) != len(first.obligations):
        raise SystemExit(f'{at}: the edits of the obligations are not told: {text}')
    note(tally, first.verdict)
    if any(cell.operation in DIVISIONS for cell in first.cells):
        note(tally, 'with a division')
    worked = Design(first)
    given = sources(first, worked)
    if first.looped != (worked.worked_out(*filled(worked, [])) is None) or first.looped and first.verdict in (HOLDS, ONE_STEP):
        raise SystemExit(f'{at}: {told[0]}, a current loop, found {first.looped}: {text}')
    for result in results:
        if result.verdict == BROKEN:
            fits = example_fits(worked, result, given)
            if fits is False:
                raise SystemExit(f'{at}: the example of {result.solver} is not what working out gives: {text}')
            note(tally, 'examples worked out' if fits else 'examples with a loop')
    if first.verdict in (HOLDS, ONE_STEP):
        standing(at, first, tally)
    if first.verdict == NOTHING_ASKED or 3 ** len(given) > FEW:
        return
    broken = tried(worked, given)
    if broken is not None and (first.verdict == BROKEN) != broken:
        raise SystemExit(f'{at}: {told[0]}, but trying all sources says {"broken" if broken else "holds"}: {text}')
    note(tally, 'tried with all sources' if broken is not None else 'with few sources and a loop')


def standing(at, result, tally):
    """Holds HOLDS to edits that stand when applied, and runs the design beside its applied netlist."""
    edits, text = vm_applied.Edits(result), ', '.join(notation.show(result.words))
    if edits.stands() != (result.verdict == HOLDS):
        raise SystemExit(f'{at}: {result.verdict}, but by a second rendering the edits stand: {edits.stands()}: {text}')
    if edits.circular() or edits.looped():
        return note(tally, 'with a circle or a loop once applied')
    chance, beside = random.Random(at), vm_applied.Beside(result)
    parted = next(filter(None, (beside.parted(chance, STEPS) for _ in range(RUNS))), None)
    if parted and result.verdict == HOLDS:
        raise SystemExit(f'{at}: HOLDS, but when applied it parts at step {parted[0]}, {parted[1]}: {text}')
    if result.verdict == ONE_STEP:
        note(tally, 'untimely, parted in a run' if parted else 'untimely, not parted')


def counted(tally):
    return ', '.join(f'{number} {what}' for what, number in sorted(tally.items()))


def note(tally, what):
    tally[what] = tally.get(what, 0) + 1


if __name__ == '__main__':
    main(*(int(argument) for argument in sys.argv[1:3]))
