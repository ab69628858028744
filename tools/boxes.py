"""What the drawing of a design shows: a box for each cell, past state and edit, and a wire for each read.

`boxes_of(result)` gives the boxes by their keys, and the wires. A flip-flop's past has a box of its own, and so has a
clock's: both are sources.
"""
import re
from dataclasses import dataclass, field

from verdict import HOLDS, ONE_STEP, PORTED

LONGEST = 30   # the most characters of a row's nets
TITLE, LINE = 22, 17   # heights


@dataclass
class Row:
    """A line of a box: a role and the nets that are read there."""
    role: str
    text: str
    whole: str = ''
    trit: tuple = None        # what the net shows: (text, hidden)


@dataclass
class Box:
    key: tuple
    kind: str                 # 'cell', 'source', 'past', 'added', 'edit', 'kept', 'broken' or 'plain'
    title: str
    note: str = ''
    rows: list = field(default_factory=list)
    trits: list = field(default_factory=list)   # highest first: (text or None, hidden)
    layer: int = 0
    band: int = 0
    x: float = 0
    y: float = 0
    width: float = 0
    height: float = 0

    def row_y(self, row):
        """The middle of a row, at which wires come in."""
        return self.y + TITLE + LINE * row + LINE / 2

    def out_y(self):
        """Where wires go out: at the first row, so that a chain of cells runs straight."""
        return self.row_y(0) if self.rows else self.y + self.height / 2


@dataclass
class Wire:
    source: tuple
    target: tuple
    row: int
    style: str = ''           # 'past' for a read of the past, 'edit' for an edit's
    back: bool = False        # it closes a loop, and is drawn backwards
    looped: bool = False      # it is part of a current loop
    named: bool = False       # it is part of the loop that the verifier names
    points: list = field(default_factory=list)


def _short(text):
    return text if len(text) <= LONGEST else text[:LONGEST - 1] + '…'


def _run(nets, names):
    """The text of equal or consecutive nets."""
    first, last = nets[0].text(names), nets[-1].text(names)
    if len(nets) == 1:
        return first
    return f'{first}*{len(nets)}' if first == last else range_text(first, last)


def range_text(first, last):
    """A run of slots: sum[0..3], where both are of one cell, else s0..s3."""
    name, open_, at = first.partition('[')
    other, _, to = last.partition('[')
    return f'{name}[{at[:-1]}..{to}' if open_ and name == other else f'{first}..{last}'


def _follows(one, other):
    """Whether `other` goes on with a run that ends in `one`."""
    if one.inverted != other.inverted:
        return False
    if one.slot is None or other.slot is None:
        return one.slot is other.slot and one.constant == other.constant
    return other.slot == one.slot + 1


def nets_text(nets, names):
    """Nets in the notation's order, lowest first; runs are shortened."""
    runs = []
    for net in nets:
        if runs and _follows(runs[-1][-1], net):
            runs[-1].append(net)
        else:
            runs.append([net])
    return ' '.join(_run(run, names) for run in runs)


def slots_text(result, cell):
    """The name of a cell, or its slots."""
    first = result.slot_text(cell.slot)
    if cell.slot in result.names:
        return first.partition('[')[0]
    return first if cell.width < 2 else f'{first}..{result.slot_text(cell.slot + cell.width - 1)}'


def trit_at(result, slot, age):
    """The trit of a slot now or before, None where the example has none, and whether a 1 is hidden under it."""
    trit = result.trits.get(slot)
    if trit is None:
        return None, False
    shown, hidden = (trit.now, trit.hidden_now) if age == 'now' else (trit.was, trit.hidden_was)
    return shown, shown == 'X' and bool(hidden)


def trits_of(result, cell, age):
    """The trits of a cell's slots, highest first; none where the example has none of them."""
    shown = [trit_at(result, slot, age) for slot in range(cell.slot + max(1, cell.width) - 1, cell.slot - 1, -1)]
    return shown if any(text for text, _ in shown) else []


def trit_of(result, net, age):
    """The trit of a net, or None where the example has none or the net is a constant."""
    shown = trit_at(result, net.slot, age)
    return shown if shown[0] else None


class _Graph:
    """The boxes and wires of a result, before they have places."""

    def __init__(self, result):
        self.result = result
        self.boxes, self.wires = {}, []
        self.cell_of = {}
        for cell in result.cells:
            for slot in range(cell.slot, cell.slot + max(1, cell.width)):
                self.cell_of[slot] = cell
        for cell in result.cells:
            self._cell(cell)
        for index, replacement in enumerate(result.replacements):
            self._replacement(index, replacement)

    def _add(self, box):
        self.boxes[box.key] = box
        return box

    def _cell(self, cell):
        kind = 'added' if cell.added else 'source' if cell.operation in ('Input', 'IoBuf', 'Void') else 'cell'
        title = f'{cell.operation} {slots_text(self.result, cell)}'
        box = self._add(Box(('now', cell.slot), kind, title, 'added' if cell.added else ''))
        box.trits = trits_of(self.result, cell, 'now')
        self._pins(box, cell)

    def _pins(self, box, cell):
        """The rows of a cell's box, and the wires into them."""
        for pin in cell.pins:
            if pin.nets and not _inactive(cell, pin.role):
                self._row(box, pin.role, pin.nets, _compared(cell, pin), pin.role == 'clock')
        if cell.operation == 'Dff' and cell.width:
            old = self.cell_of[cell.slot]
            self._wire(self._past(old), box, self._text_row(box, 'was', slots_text(self.result, cell)), 'past')

    def _text_row(self, box, role, text):
        box.rows.append(Row(role, _short(text), text))
        return len(box.rows) - 1

    def _row(self, box, role, nets, drawn, clock=False):
        row = self._text_row(box, role, nets_text(nets, self.result.names))
        for net in drawn:
            if net.slot is not None:
                for source, style in self._read(net.slot, clock):
                    self._wire(source, box, row, style)
        return row

    def _read(self, slot, clock):
        """The boxes that a slot is read from: a base Dff's past, another cell's current side, both of a clock."""
        cell = self.cell_of.get(slot)
        if cell is None:
            return []
        if clock:
            return [(('now', cell.slot), ''), (self._past(cell), 'past')]
        if cell.operation == 'Dff' and not cell.added:
            return [(self._past(cell), 'past')]
        return [(('now', cell.slot), '')]

    def _past(self, cell):
        """The box of a cell's past state."""
        key = ('was', cell.slot)
        if key not in self.boxes:
            box = self._add(Box(key, 'past', f'was {slots_text(self.result, cell)}'))
            box.trits = trits_of(self.result, cell, 'was')
        return key

    def _wire(self, source, box, row, style=''):
        if not any((wire.source, wire.target, wire.row) == (source, box.key, row) for wire in self.wires[-130:]):
            self.wires.append(Wire(source, box.key, row, style))

    def _replacement(self, index, edit):
        if edit.kind == 'cell':
            self._cell_replacement(index, edit)
        elif edit.old == edit.new:
            self._add(Box(('edit', index), 'plain', edit.text, 'counts as none'))
        elif edit.old.slot is not None and self._is_void(edit.old.slot):
            box = self.boxes[('now', edit.old.slot)]
            box.kind, box.note = 'edit', 'replaced'
            self._row(box, 'is', [edit.new], [edit.new])
        else:
            self._net_replacement(index, edit)

    def _is_void(self, slot):
        cell = self.cell_of.get(slot)
        return cell is not None and cell.operation == 'Void'

    def _judged(self, index, title):
        """The box of an edit's obligations, with their state."""
        states = [each.state for each in self.result.obligations if each.replacement == index]
        kept = True in states or self.result.verdict == HOLDS
        kind = 'broken' if False in states else 'kept' if kept else 'edit'
        unjudged = 'one step' if self.result.verdict == ONE_STEP else 'edit'
        note = {'broken': '✗ broken', 'kept': '✓ holds', 'edit': unjudged}[kind]
        return self._add(Box(('edit', index), kind, title, note))

    def _old(self, box, net):
        """The row of what is replaced, taken current."""
        row = self._text_row(box, 'old', net.text(self.result.names))
        box.rows[row].trit = trit_of(self.result, net, 'now')
        if net.slot is not None:
            self._wire(('now', self.cell_of[net.slot].slot), box, row, 'edit')

    def _net_replacement(self, index, edit):
        names = self.result.names
        box = self._judged(index, f'{edit.old.text(names)} → {edit.new.text(names)}')
        self._old(box, edit.old)
        joined = self._is_dff(edit.old) and self._is_dff(edit.new)
        if not joined or self.result.mode == PORTED:
            row = self._row(box, 'new', [edit.new], [edit.new])
            age = 'was' if self._is_dff(edit.new) and not self.cell_of[edit.new.slot].added else 'now'
            box.rows[row].trit = trit_of(self.result, edit.new, age)
        if joined:
            row = self._text_row(box, 'joined', f'was {edit.old.text(names)} = was {edit.new.text(names)}')
            for net in (edit.old, edit.new):
                self._wire(self._past(self.cell_of[net.slot]), box, row, 'past')
            row = self._text_row(box, 'new now', edit.new.text(names))
            box.rows[row].trit = trit_of(self.result, edit.new, 'now')
            self._wire(('now', self.cell_of[edit.new.slot].slot), box, row)

    def _is_dff(self, net):
        cell = self.cell_of.get(net.slot)
        return cell is not None and cell.operation == 'Dff'

    def _cell_replacement(self, index, edit):
        old, slots = self.cell_of[edit.slot], slots_text(self.result, self.cell_of[edit.slot])
        new = self._add(Box(('new', index), 'edit', f'{edit.cell.operation} for {slots}', 'new'))
        new.trits = self._new_trits(index)
        self._pins(new, edit.cell)
        if not old.width:
            return
        box = self._judged(index, f'{slots} → new')
        self._wire(('now', old.slot), box, self._text_row(box, 'old', slots), 'edit')
        self._wire(new.key, box, self._text_row(box, 'new', edit.cell.operation), 'edit')
        for row, trits in zip(box.rows, (trits_of(self.result, old, 'now'), new.trits)):
            row.trit = trits[0] if len(trits) == 1 else None

    def _new_trits(self, index):
        """What a new cell gives in the example, which is told with its obligation."""
        told = [each.shown or '' for each in self.result.obligations if each.replacement == index]
        found = re.search('the new one ([01X]+)', told[0]) if told else None
        return [(sign, False) for sign in found.group(1)] if found else []


def _inactive(cell, role):
    """Whether a row of a Dff says nothing: an enable that is always on; a clear or reset always off, and its value."""
    if cell.operation != 'Dff' or role.partition(' ')[0] not in ('clear', 'reset', 'enable'):
        return False
    control = next(pin.nets[0] for pin in cell.pins if pin.role == role.partition(' ')[0])
    return control.text() in (('1', '!0') if role == 'enable' else ('0', '!1'))


def _compared(cell, pin):
    """The nets of a pin that are read: of a Match's compared value only the positions that some alternate compares."""
    if cell.patterns is None or len(pin.nets) != cell.numbers.get('n') or pin.role == 'enable':
        return pin.nets
    alternates = [each for pattern in cell.patterns for each in pattern]
    return [net for at, net in enumerate(pin.nets) if any(each[at] != 'X' for each in alternates)]


def boxes_of(result):
    """The boxes of a result by key, in the order of cells and edits, and its wires."""
    graph = _Graph(result)
    return graph.boxes, graph.wires
