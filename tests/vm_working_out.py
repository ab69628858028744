"""Document 01's "Reading nets" and "Cell rules", with document 02's divisions, modes and order, written from the paper
as a second opinion, for tests alone.

A trit is '0', '1' or 'X'. A design is a result of vm with its cells and replacements; given trits are two tables by
slot, now and was.
"""
GIVEN = ('Input', 'IoBuf')
DIVISIONS = ('UDiv', 'UMod', 'SDivTrunc', 'SModTrunc')
# Designs worked out by hand: whether there is a current loop, its first slots or those of all nodes in order, and why.
ORDERS = (
    ('#3 #0 #0 #0, Not #1 s1, Buf #1 s2, Input #1', False, [1, 0], 'each after what it reads'),
    ('#5 #0 #0 #0, Buf #1 s4, Buf #1 s3, Input #1, Buf #1 s2, Buf #1 0', False, [3, 1, 4, 0], 'the lowest ready next'),
    ('#2 #0 #0 #0, Dff #1 #0 0 0 0 1 s1 X X, Not #1 s0', False, [1, 0], 'a base Dff is read past'),
    ('#1 #0 #0 #0, Dff #1 #0 s0 0 0 1 0 X X', True, [0], 'but its clock as it is now too'),
    ('#0 #2 #0 #0, Dff #1 #0 0 0 0 1 s1 X X, Not #1 s0', True, [0, 1], 'an added Dff is read as it is now'),
    ('#2 #0 #0 #0, Match #2 #2 1 s0 s1 #1 X X #0', False, [0], 'a Match does not read what no alternate compares'),
    ('#2 #0 #0 #0, Match #2 #2 1 s0 s1 #1 X 1 #0', True, [0], 'but what one compares'),
    ('#2 #0 #0 #0, Assign #0 #0 #0 s0, Buf #1 s0', False, [1], 'a cell without an output is no node'),
    ('#3 #0 #0 #0, Buf #2 s2 s0, Input #1', True, [0], 'a cell is taken whole'),
    ('#1 #1 #0 #1, Buf #1 s1, Void, s1 s0', True, [0, 1], 'a replaced Void'),
    ('#1 #1 #0 #1, Buf #1 s1, Void, s1 s1', False, [0], 'a Void replaced by itself'),
    ('#2 #0 #1 #0, Input #1, Buf #1 s0, #1 Buf #1 s1', False, [1], 'new cells are no nodes'),
    ('#3 #0 #0 #0, Buf #1 s1, Buf #1 s2, Buf #1 s1', True, [1, 2], 'the loop starts at the first met again'),
    ('#4 #0 #0 #0, Aig s3 s1, Buf #1 s2, Buf #1 s1, Buf #1 s3', True, [1, 2], 'always to the lowest slot read'),
    ('#4 #0 #0 #0, Buf #1 0, Aig s0 s3, Buf #1 s2, Aig s2 s1', True, [1, 3], 'of those that never get ready'),
    ('#0 #0 #0 #0', False, [], 'no nodes'),
)


def invert(a):
    return {'0': '1', '1': '0', 'X': 'X'}[a]


def both(a, b):
    return '0' if '0' in (a, b) else 'X' if 'X' in (a, b) else '1'


def either(a, b):
    return invert(both(invert(a), invert(b)))


def exclusive(a, b):
    return 'X' if 'X' in (a, b) else str(int(a != b))


def mux(select, one, zero):
    """The first side on 1, the second on 0; on X a bit only where both agree."""
    if select == 'X':
        return [a if a == b else 'X' for a, b in zip(one, zero)]
    return one if select == '1' else zero


def number(trits):
    """The number of defined trits, lowest first."""
    return sum(2 ** at for at, trit in enumerate(trits) if trit == '1')


def bits(value, width):
    return [str(value >> at & 1) for at in range(width)]


def adc(left, right, carry):
    total = bits(number(left) + number(right) + (carry == '1'), len(left) + 1)
    known = [carry != 'X' and 'X' not in left[:at + 1] + right[:at + 1] for at in range(len(left) + 1)]
    return [bit if fine else 'X' for bit, fine in zip(total, known)]


def equal(left, right):
    pairs = list(zip(left, right))
    if any(set(pair) == {'0', '1'} for pair in pairs):
        return '0'
    return 'X' if any('X' in pair for pair in pairs) else '1'


def signed(trits):
    return number(trits) - 2 ** len(trits) * (trits[-1] == '1')


def divide(operation, left, right):
    """The quotient towards zero, or what it leaves of the dividend."""
    order = signed if operation in ('SDivTrunc', 'SModTrunc') else number
    if 'X' in left + right or order(right) == 0:
        return ['X'] * len(left)
    a, b = order(left), order(right)
    quotient = abs(a) // abs(b) * (1 if (a < 0) == (b < 0) else -1)
    return bits(quotient if operation in ('UDiv', 'SDivTrunc') else a - b * quotient, len(left))


def shift(operation, value, amount, stride):
    width = len(value)
    if 'X' in amount:
        return ['X'] * width
    by = number(amount) * stride
    if operation == 'Shl':
        return (['0'] * min(by, width) + value)[:width]
    fill = {'UShr': '0', 'SShr': value[-1] if value else '0', 'XShr': 'X'}[operation]
    return (value[by:] + [fill] * width)[:width]


def match(value, enable, patterns):
    hot = []
    for alternates in patterns:
        found = '0'
        for pattern in alternates:
            fits = '1'
            for trit, wanted in zip(value, pattern):
                if wanted != 'X':
                    fits = both(fits, trit if wanted == '1' else invert(trit))
            found = either(found, fits)
        hot.append(found)
    cold = ['0'] * len(patterns)
    taken = cold
    for at in reversed(range(len(patterns))):
        taken = mux(hot[at], cold[:at] + ['1'] + cold[at + 1:], taken)
    return mux(enable, taken, cold)


class Design:
    """An accepted design, and how its nets are read."""

    def __init__(self, result):
        self.cells, self.edits, self.base, self.mode = result.cells, result.replacements, result.base, result.mode
        self.owner = {slot: cell for cell in result.cells for slot in range(cell.slot, cell.slot + max(1, cell.width))}
        self.void = {edit.old.slot: edit.new for edit in self.edits if edit.kind == 'net' and edit.old != edit.new
                     and edit.old.slot is not None and self.owner[edit.old.slot].operation == 'Void'}
        self.joined = [(edit.old.slot, edit.new.slot) for edit in self.edits if edit.kind == 'net'
                       and edit.old != edit.new and self._is_dff(edit.old) and self._is_dff(edit.new)]

    def _is_dff(self, net):
        return net.slot is not None and self.owner[net.slot].operation == 'Dff'

    def source(self, slot):
        """Whether a slot's current trit is given."""
        cell = self.owner[slot]
        return slot not in self.void if cell.operation == 'Void' else cell.operation in GIVEN or cell.width == 0

    def past(self, net):
        return net.slot is not None and net.slot < self.base and self._is_dff(net)

    def at(self, net, table):
        """What a net shows in a table; an inverted word its Not. Only what a Match does not compare may be missing."""
        trit = net.constant if net.slot is None else table.get(net.slot, 'X')
        return invert(trit) if net.inverted else trit

    def read(self, net, now, was):
        return self.at(net, was if self.past(net) else now)

    def rule(self, cell, now, was):
        """What a cell gives, lowest first."""
        pins = {pin.role: [self.read(net, now, was) for net in pin.nets] for pin in cell.pins if pin.role != 'clock'}
        named, slots = cell.operation, range(cell.slot, cell.slot + cell.width)
        left, right = pins.get('left'), pins.get('right')
        if named in ('Buf', 'Not'):
            return [trit if named == 'Buf' else invert(trit) for trit in pins['value']]
        if named in ('And', 'Or', 'Xor', 'Aig'):
            gate = {'And': both, 'Aig': both, 'Or': either, 'Xor': exclusive}[named]
            return [gate(a, b) for a, b in zip(left, right)]
        if named == 'Mux':
            return mux(pins['select'][0], pins['one'], pins['zero'])
        if named == 'Adc':
            return adc(left, right, pins['carry'][0])
        if named == 'Eq':
            return [equal(left, right)]
        if named in ('ULt', 'SLt', 'Mul'):
            if 'X' in left + right:
                return ['X'] * cell.width
            if named == 'Mul':
                return bits(number(left) * number(right), cell.width)
            order = number if named == 'ULt' else signed
            return [str(int(order(left) < order(right)))]
        if named in DIVISIONS:
            return divide(named, left, right)
        if named in ('Shl', 'UShr', 'SShr', 'XShr'):
            return shift(named, pins['value'], pins['amount'], cell.numbers['stride'])
        if named == 'Match':
            return match(pins['value'], pins['enable'][0], cell.patterns)
        if named == 'Assign':
            offset, update = cell.numbers['offset'], pins['update']
            written = pins['value'][:offset] + update + pins['value'][offset + len(update):]
            return mux(pins['enable'][0], written, pins['value'])
        if named == 'IoBuf':
            return [(was if slot < self.base and self.owner[slot].operation == 'Dff' else now)[slot] for slot in slots]
        assert named == 'Dff', named
        return self._dff(cell, pins, [was[slot] for slot in slots], now, was)

    def _dff(self, cell, pins, old, now, was):
        clock, clear = cell.pins[0].nets[0], cell.pins[1].nets[0]
        data = pins['data']
        if cell.numbers['reset over enable']:
            data = mux(pins['reset'][0], pins['reset value'], mux(pins['enable'][0], data, old))
        else:
            data = mux(pins['enable'][0], mux(pins['reset'][0], pins['reset value'], data), old)
        data = mux(both(self.at(clock, now), invert(self.at(clock, was))), data, old)
        never = clear.slot is None and clear.constant == ('1' if clear.inverted else '0')
        return data if never else mux(pins['clear'][0], pins['clear value'], data)

    def _waits_for(self, cell):
        """The slots whose current trits a cell's rule reads."""
        nets = []
        for pin in cell.pins:
            for at, net in enumerate(pin.nets):
                if pin.role == 'clock' or not self.past(net):
                    if cell.operation != 'Match' or pin.role == 'enable' or any(
                            alternate[at] != 'X' for alternates in cell.patterns for alternate in alternates):
                        nets.append(net)
        return [net.slot for net in nets if net.slot is not None]

    def _nodes(self):
        """The asserted cells and replaced Voids by first slot, each with those of them that it reads currently."""
        slots = {cell.slot: self._waits_for(cell) for cell in self.cells
                 if cell.width and cell.operation not in GIVEN + ('Void',)}
        slots.update((slot, [] if net.slot is None or self.past(net) else [net.slot]) for slot, net in self.void.items())
        return {node: {self.owner[slot].slot for slot in read} & set(slots) for node, read in slots.items()}

    def order(self):
        """Whether there is a current loop, and the loop that document 02 names, or the nodes in their order."""
        reads, ordered = self._nodes(), []
        left = set(reads)
        while any(not reads[node] & left for node in left):
            ordered.append(min(node for node in left if not reads[node] & left))
            left.remove(ordered[-1])
        if not left:
            return False, ordered
        walk = [min(left)]
        while True:
            to = min(reads[walk[-1]] & left)
            if to in walk:
                return True, walk[walk.index(to):]
            walk.append(to)

    def worked_out(self, now, was):
        """The current trits of all slots from those of the sources, None where there is a current loop."""
        now = dict(now)
        left = [cell for cell in self.cells if cell.width and cell.operation not in GIVEN + ('Void',)]
        voids = dict(self.void)
        while left or voids:
            ready = [cell for cell in left if all(slot in now for slot in self._waits_for(cell))]
            for cell in ready:
                now.update(zip(range(cell.slot, cell.slot + cell.width), self.rule(cell, now, was)))
                left.remove(cell)
            given = [slot for slot, net in voids.items() if net.slot is None or self.past(net) or net.slot in now]
            for slot in given:
                now[slot] = self.read(voids.pop(slot), now, was)
            if not ready and not given:
                return None
        return now

    def obligations(self, now, was):
        """Whether each obligation holds, in the order of the query."""
        found = []
        for edit in self.edits:
            if edit.kind == 'cell':
                if edit.cell.width:
                    old = [now[slot] for slot in range(edit.slot, edit.slot + edit.cell.width)]
                    found.append(refines(old, self.rule(edit.cell, now, was)))
            elif edit.old != edit.new and edit.old.slot not in self.void:
                old, joined = [self.at(edit.old, now)], self._is_dff(edit.old) and self._is_dff(edit.new)
                if joined:
                    found.append(refines(old, [self.at(edit.new, now)]))
                if not joined or self.mode == 0:
                    found.append(refines(old, [self.read(edit.new, now, was)]))
        return found


def refines(old, new):
    return all(a in ('X', b) for a, b in zip(old, new))
