#!/usr/bin/env python3
"""What applying a design's edits gives, which edits are timely, and runs of a design beside its applied netlist,
written from the study's definitions (Applied, Timely, EveryStep) as a second opinion, for tests alone. Started by
itself it checks the study's table of lists, and lists whose edits stand.
"""
import dataclasses, os, random, sys

ROOT = os.path.dirname(os.path.dirname(os.path.abspath(__file__)))
sys.pycache_prefix = os.path.join(ROOT, 'target', 'pycache')
sys.path[:0] = [os.path.join(ROOT, 'tools'), os.path.join(ROOT, 'tests')]
from verdict import INDUCTIVE, PORTED, Net, Pin, Result
from vm_working_out import GIVEN, Design, refines

CONSTANT_RUNS = ('clear value', 'reset value')
BOTH = (PORTED, INDUCTIVE)
# The study's lists that hold but do not stand: the modes, and what is against them, alone.
LISTS = (
    ('#2 #0 #0 #2, Input #1, Buf #1 s0, s0 s1, s1 s0', BOTH, 'circle'),
    ('#1 #1 #0 #1, Input #1, Buf #1 s0, s0 s1', BOTH, 'loop'),
    ('#1 #0 #1 #0, Input #1, #0 Buf #1 s0', BOTH, 'loop'),
    ('#3 #0 #2 #0, Input #1, Buf #1 s0, Buf #1 s0, #1 Buf #1 s2, #2 Buf #1 s1', BOTH, 'loop'),
    ('#1 #0 #1 #0, Buf #1 0, #0 IoBuf #1', BOTH, 'a'),
    ('#2 #0 #1 #0, Input #1, Or #1 s0 X, #1 Dff #1 #0 0 s0 0 1 X 1 X', BOTH, 'a'),
    ('#2 #0 #1 #0, Input #1, Dff #1 #0 X 0 0 1 s0 X X, #1 Buf #1 s0', BOTH, 'a'),
    ('#2 #0 #0 #1, Input #1, Dff #1 #0 X 0 0 1 s0 X X, s1 s0', BOTH, 'b'),
    ('#3 #1 #0 #2, Input #1, Dff #1 #0 0 s0 0 1 X 0 X, Mux #1 s0 0 s1, Dff #1 #0 0 s0 0 1 X 0 X, s1 s3, s2 s3',
     BOTH, 'c'),
    ('#2 #1 #1 #0, Input #1, Or #1 s0 X, Dff #1 #0 0 s0 0 1 X 1 X, #1 Buf #1 s2', BOTH, 'c'),
    ('#3 #1 #1 #1, Input #1, Dff #1 #0 0 s0 0 1 X 0 X, Mux #1 s0 0 s1, Dff #1 #0 0 s0 0 1 X 0 X, #2 Buf #1 s3, s3 s1',
     (INDUCTIVE,), 'c'),
    ('#4 #0 #0 #1, Input #1, Dff #1 #0 0 s0 0 1 X 1 X, Buf #1 s1, Dff #1 #0 s2 0 0 1 s0 X X, s2 s1', BOTH, 'd'),
)
FIXED = '#2 #1 #1 #1, Dff #1 #0 0 0 0 1 0 X X, Not #1 s0, Dff #1 #0 0 0 0 1 0 X X'
# More lists against which something is, of nets that the table has none of; their runs need not part.
MORE = (
    ('#1 #0 #0 #2, Buf #1 0, 0 s0, s0 0', BOTH, 'circle'),
    ('#1 #0 #0 #1, Buf #1 X, X s0', BOTH, 'loop'),
    ('#3 #0 #0 #2, Input #1, XShr #1 #1 #1 s0 1, Or #1 s0 X, s1 s2, X s1', BOTH, 'loop'),
    ('#2 #1 #0 #1, Input #1, Or #1 s0 X, Dff #1 #0 0 s0 0 1 X 1 X, X s2', BOTH, 'c'),
    ('#2 #1 #0 #1, Input #1, Assign #0 #0 #0 X, Dff #1 #0 0 s0 0 1 X 1 X, X s2', BOTH, 'c'),
    (f'{FIXED}, #1 Not #1 s2, s2 s0', (INDUCTIVE,), 'c'),
    ('#2 #0 #0 #1, Input #1, Dff #1 #0 X 0 0 1 s0 X X, X s1', BOTH, 'd loop'),
    ('#2 #2 #0 #1, Input #1, Dff #1 #0 s0 0 0 1 s0 X X, Void, Dff #1 #0 s2 0 0 1 s0 X X, s2 s1', BOTH, 'd'),
)
TWINS = 'Input #1, Input #1, Dff #1 #0 s0 0 0 1 s1 X X, Dff #1 #0 s0 0 0 1 s1 X X'
# Lists that hold and whose edits stand, and the modes.
STANDING = (
    ('#3 #0 #0 #1, Input #1, Not #1 s0, Not #1 s1, s2 s0', BOTH),
    # Nets replaced by themselves, which counts as none.
    ('#3 #0 #0 #4, Input #1, Not #1 s0, Not #1 s1, 0 0, s0 s0, s1 s1, s2 s0', BOTH),
    # Both twins are replaced by an added third one.
    (f'#4 #1 #0 #2, {TWINS}, Dff #1 #0 s0 0 0 1 s1 X X, s2 s4, s3 s4', BOTH),
    # An added copy in place of a flip-flop that a gate and a clock read.
    (f'#5 #2 #0 #1, {TWINS}, Not #1 s2, Dff #1 #0 s0 0 0 1 s1 X X, Dff #1 #0 !s2 0 0 1 s0 X X, s2 s5', BOTH),
    # One twin of the base in place of the other.
    (f'#5 #0 #0 #1, {TWINS}, Not #1 s3, s3 s2', (INDUCTIVE,)),
    # A net of an added flip-flop that never changes, read by a gate, by one of the base; one of the base by a constant.
    (f'{FIXED}, #1 Not #1 s2, s2 s0', (PORTED,)),
    ('#3 #0 #0 #1, Input #1, Dff #1 #0 s0 1 0 1 s0 0 X, Not #1 s1, s1 0', BOTH),
    # A flip-flop's cell replaced by one whose flag does not matter, and its data by what it was made from.
    ('#4 #0 #1 #1, Input #1, Not #1 s0, Not #1 s1, Dff #1 #0 s1 0 0 1 s2 X X, #3 Dff #1 #1 s1 0 0 1 s2 X X, s2 s0',
     BOTH),
    # A Buf behind a net, by its readers one by one.
    ('#3 #1 #2 #0, Input #1, Not #1 s0, And #1 s0 s1, Buf #1 s0, #1 Not #1 s3, #2 And #1 s3 s1', BOTH),
    # A chain of two replacements, read by a clock, inverted, and by a gate.
    ('#6 #0 #0 #2, Input #1, Not #1 s0, Not #1 s1, Buf #1 s2, Dff #1 #0 !s3 0 0 1 s0 X X, And #1 s3 s4, s2 s0, s3 s2',
     BOTH),
    # A net by a constant; the constant X by another; the constant 0, a clock and then a clear, by a net.
    ('#3 #0 #0 #1, Input #1, And #1 s0 0, Not #1 s1, s1 0', BOTH),
    ('#2 #0 #0 #1, Input #1, Mux #1 s0 1 X, X 0', BOTH),
    ('#3 #0 #0 #1, Input #1, Not #1 1, Dff #1 #0 0 s0 0 1 0 X 1, 0 s1', BOTH),
    ('#3 #0 #0 #1, Input #1, Not #1 1, Dff #1 #0 s0 0 0 1 s0 X 1, 0 s1', BOTH),
    # Replaced Voids: clocks, the second by an added flip-flop; and one that a gate reads beside one that stays.
    ('#3 #0 #0 #1, Input #1, Void, Dff #1 #0 s1 0 0 1 s0 X X, s1 s0', BOTH),
    ('#3 #1 #0 #1, Input #1, Void, Dff #1 #0 s1 0 0 1 s0 X X, Dff #1 #0 s0 0 0 1 1 0 X, s1 s3', BOTH),
    ('#2 #2 #0 #1, Input #1, And #1 s2 s3, Void, Void, s2 s0', BOTH),
)


def plain(net):
    """A net without its inversion: its slot's number, or its constant's text."""
    return net.constant if net.slot is None else net.slot


def net_of(named, inverted=False):
    """The net of a slot's number or a constant's text."""
    return Net(constant=named, inverted=inverted) if isinstance(named, str) else Net(named, inverted=inverted)


def links(chain):
    """The consecutive pairs of a chain."""
    return list(zip(chain, chain[1:]))


class Edits:
    """The edits of an accepted design; nets are plain, but where a Net is said, and are those of the old cells."""

    def __init__(self, result):
        """Takes a filled result: `replacing` has what replaces a net, `final` the cells, new ones in place."""
        self.result, self.design = result, Design(result)
        self.replacing = {plain(edit.old): plain(edit.new) for edit in result.replacements
                          if edit.kind == 'net' and edit.old != edit.new}
        self.new = {edit.slot: edit.cell for edit in result.replacements if edit.kind == 'cell'}
        self.final = [self.new.get(cell.slot, cell) for cell in result.cells]

    def chain(self, net):
        """A net, what replaces it, what replaces that and so on, as many links at most as there are replacements."""
        found = [net]
        while found[-1] in self.replacing and len(found) <= len(self.replacing):
            found.append(self.replacing[found[-1]])
        return found

    def circular(self):
        """Whether some chain of replacements never ends."""
        return any(self.chain(net)[-1] in self.replacing for net in self.replacing)

    def resolve(self, net):
        """The Net at the end of a Net's chain, inversion kept."""
        return net_of(self.chain(plain(net))[-1], net.inverted)

    def applied(self):
        """The result with the edits applied: all cells in the base, new ones in place, every net resolved."""
        slots = self.result.base + self.result.added
        cells = [dataclasses.replace(cell, pins=[self._resolved(pin) for pin in cell.pins], added=False)
                 for cell in self.final]
        return Result(self.result.source, names=self.result.names, base=slots, cells=cells, mode=self.result.mode)

    def _resolved(self, pin):
        """A pin with its nets resolved; clear and reset values are constants and no nets."""
        return Pin(pin.role, [net if pin.role in CONSTANT_RUNS else self.resolve(net) for net in pin.nets])

    def flip_flop(self, net):
        """Whether a net is a flip-flop's, of the base or added."""
        return isinstance(net, int) and self.design.owner[net].operation == 'Dff'

    def past(self, net):
        """Whether a net is read past: one of a flip-flop of the base."""
        return self.flip_flop(net) and net < self.result.base

    def read_nets(self):
        """The nets of the base but Voids, and those that a final cell names otherwise than as its clock, each once."""
        base = [slot for slot in range(self.result.base) if self.design.owner[slot].operation != 'Void']
        named = [plain(net) for cell in self.final for pin in cell.pins if pin.role not in CONSTANT_RUNS + ('clock',)
                 for net in pin.nets]
        return list(dict.fromkeys(base + named))

    def kept_nets(self):
        """The nets of flip-flops and the clocks of final cells, each once."""
        flip_flops = [slot for slot in sorted(self.design.owner) if self.flip_flop(slot)]
        clocks = [plain(net) for cell in self.final for pin in cell.pins if pin.role == 'clock' for net in pin.nets]
        return list(dict.fromkeys(flip_flops + clocks))

    def _same_kind(self, old, new):
        """(a): a flip-flop for a flip-flop and no other cell, and an IoBuf for what is given alone."""
        return (old.operation == 'Dff') == (new.operation == 'Dff') and (
            new.operation not in GIVEN or old.operation in GIVEN)

    def _lasting(self, net):
        """(b): its chain ends in a flip-flop's net or a constant."""
        end = self.chain(net)[-1]
        return isinstance(end, str) or self.flip_flop(end)

    def _in_time(self, net):
        """(c): its chain meets a net that is read past, in the inductive mode first after no flip-flop's, or ends in no
        flip-flop's."""
        chain = self.chain(net)
        before = [one for one, other in links(chain) if self.past(other)]
        if before:
            return self.result.mode != INDUCTIVE or not self.flip_flop(before[0])
        return not self.flip_flop(chain[-1])

    def _steady(self, net):
        """(d): on its chain no net but a flip-flop's is replaced by one that is read past."""
        return all(self.flip_flop(one) for one, other in links(self.chain(net)) if self.past(other))

    def failing(self):
        """The letters of the conditions of Timely that do not hold."""
        owner = self.design.owner
        holds = {
            'a': all(self._same_kind(owner[slot], cell) for slot, cell in self.new.items()),
            'b': all(self._lasting(slot) for slot in owner if self.past(slot)),
            'c': all(self._in_time(net) for net in self.read_nets() if not self.past(net)),
            'd': all(self._steady(net) for net in self.kept_nets()),
        }
        return {letter for letter, fine in holds.items() if not fine}

    def looped(self):
        """Whether the applied design has a current loop."""
        return Design(self.applied()).order()[0]

    def stands(self):
        """Whether the replacements are without a circle, timely, and without a current loop once applied."""
        return not self.circular() and not self.failing() and not self.looped()


def drawn(chance):
    """A trit, seldom X."""
    return chance.choice('000111X')


def beneath(trit, chance, loose):
    """A trit that refines to the given one: itself, or X as often as `loose` says."""
    return 'X' if chance.random() < loose else trit


class Beside:
    """A design and its applied netlist, to be run beside each other; its replacements have no circle."""

    def __init__(self, result):
        """Takes a filled result."""
        edits = Edits(result)
        self.old, self.new = edits.design, Design(edits.applied())
        self.slots = sorted(self.old.owner)
        self.unreplaced = [slot for slot in self.slots if slot not in edits.replacing]
        self.reads, self.kept = ([(net, edits.resolve(net)) for net in map(net_of, nets)]
                                 for nets in (edits.read_nets(), edits.kept_nets()))

    def start(self, chance, loose):
        """Past trits of both that go together on kept nets; None where a constant that is kept forbids it."""
        new = {slot: drawn(chance) for slot in self.slots}
        fixed = [(net.constant, to) for net, to in self.kept if net.slot is None]
        new.update((to.slot, trit) for trit, to in fixed if to.slot is not None and trit != 'X')
        if not all(refines([trit], [self.new.at(to, new)]) for trit, to in fixed):
            return None
        old = {slot: new[slot] if chance.random() < 0.5 else drawn(chance) for slot in self.slots}
        old.update((net.slot, beneath(self.new.at(to, new), chance, loose)) for net, to in self.kept
                   if net.slot is not None)
        return old, new

    def given(self, chance, loose):
        """Current trits for the sources of both, which go together on those that both have."""
        new = {slot: drawn(chance) for slot in self.slots if self.new.source(slot)}
        old = {slot: beneath(new[slot], chance, loose) if slot in new else drawn(chance)
               for slot in self.slots if self.old.source(slot)}
        return old, new

    def differing(self, old, new):
        """What of Refined does not hold of (now, was) of the design and of the applied netlist, or None."""
        compared = [('reads', net, to, self.old.read(net, *old), self.new.read(to, *new)) for net, to in self.reads]
        compared += [('unreplaced', net_of(slot), net_of(slot), old[0][slot], new[0][slot]) for slot in self.unreplaced]
        compared += [('kept', net, to, self.old.at(net, old[0]), self.new.at(to, new[0])) for net, to in self.kept]
        for what, net, to, before, after in compared:
            if not refines([before], [after]):
                return f'{what}: {net.text()} is {before}, and {to.text()}, once applied, {after}'
        return None

    def parted(self, chance, steps):
        """The step at which one random pair of runs parts, from 0, and how; None if it does not, or there is no run."""
        loose = chance.choice((0, 0.1, 0.4))
        was = self.start(chance, loose)
        if was is None:
            return None
        for step in range(steps):
            given = self.given(chance, loose)
            now = self.old.worked_out(given[0], was[0]), self.new.worked_out(given[1], was[1])
            if None in now:
                return None
            told = self.differing(*zip(now, was))
            if told:
                return step, told
            was = now
        return None


def parted(result, chance, steps):
    """Beside.parted of a filled result; None where replacements go in a circle."""
    return None if Edits(result).circular() else Beside(result).parted(chance, steps)


def filled(text, mode):
    """The result of a list in notation, taken as accepted."""
    import design, notation   # for the self test alone
    result = Result('-', words=notation.parse(text)[0], mode=mode)
    design.fill(result)
    return result


def against(edits):
    """What is against edits: 'circle', 'loop', letters, several with a blank between; nothing where they stand."""
    return 'circle' if edits.circular() else ' '.join(sorted(edits.failing()) + ['loop'] * edits.looped())


def judge(text, modes, what):
    """Holds what is against the edits of a list, in each of its modes, to what must be."""
    for mode in modes:
        edits = Edits(filled(text, mode))
        found = against(edits)
        if found != what or edits.stands() != (found == ''):
            raise SystemExit(f'{text}, mode {mode}: against it is "{found}", not "{what}"')


def run(text, modes, parts, steps, chance, runs):
    """Holds whether some of many runs of a list parts to what must be; no mode changes them."""
    beside = Beside(filled(text, modes[0]))
    told = next(filter(None, (beside.parted(chance, steps) for _ in range(runs))), None)
    if (told is not None) != parts:
        raise SystemExit(f'{text}: of {runs} runs {told or "none parts"}')


def main(runs=2000):
    """Checks the lists above, with random runs."""
    chance = random.Random(1)
    for text, modes, what in LISTS + MORE + tuple((text, modes, '') for text, modes in STANDING):
        judge(text, modes, what)
    letters = [(text, modes) for text, modes, what in LISTS if what in tuple('abcd')]
    for text, modes in letters:
        run(text, modes, True, 3, chance, runs)
    for text, modes in STANDING:
        run(text, modes, False, 12, chance, runs)
    print(f'applied: {len(LISTS)} lists of the study and {len(MORE)} more do not stand, each for its reason, and of '
          f'{len(letters)} a run parts; {len(STANDING)} lists stand, and none of {runs} runs of each parts')


if __name__ == '__main__':
    main()
