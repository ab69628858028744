"""An accepted list as people see it: its cells with their nets, and its edits. It checks nothing; the verifier has."""
import notation
from verdict import PORTED, Cell, Net, Pin, Replacement

# The numbers of each operation's body, then its nets: the role of each run of them, and how many they are.
VALUE, TWO = (('value', 'n'),), (('left', 'n'), ('right', 'n'))
SHIFT = ('n', 'm', 'stride'), (('value', 'n'), ('amount', 'm'))
LAYOUTS = {
    'Void': ((), ()), 'Note': ((), ()), 'Input': (('n',), ()), 'IoBuf': (('n',), ()),
    'Buf': (('n',), VALUE), 'Not': (('n',), VALUE),
    'And': (('n',), TWO), 'Or': (('n',), TWO), 'Xor': (('n',), TWO), 'Mul': (('n',), TWO),
    'Eq': (('n',), TWO), 'ULt': (('n',), TWO), 'SLt': (('n',), TWO),
    'UDiv': (('n',), TWO), 'UMod': (('n',), TWO), 'SDivTrunc': (('n',), TWO), 'SModTrunc': (('n',), TWO),
    'Mux': (('n',), (('select', 1), ('one', 'n'), ('zero', 'n'))),
    'Adc': (('n',), TWO + (('carry', 1),)),
    'Aig': ((), (('left', 1), ('right', 1))),
    'Shl': SHIFT, 'UShr': SHIFT, 'SShr': SHIFT, 'XShr': SHIFT,
    'Match': (('n', 'k'), (('enable', 1), ('value', 'n'))),
    'Assign': (('n', 'u', 'offset'), (('enable', 1), ('value', 'n'), ('update', 'u'))),
    'Dff': (('n', 'reset over enable'), (('clock', 1), ('clear', 1), ('reset', 1), ('enable', 1), ('data', 'n'),
                                         ('clear value', 'n'), ('reset value', 'n'))),
}

# The reads of a loop that are told; of a longer loop two fewer.
MOST_READS = 6


def net_of(word):
    """The net of a net word or an inverted one."""
    payload, inverted = word & notation.LAST, word >> 29 == notation.INVERTED
    for text, number in notation.CONSTANTS.items():
        if payload == number:
            return Net(constant=text, inverted=inverted)
    return Net(slot=payload - 2, inverted=inverted)


def _patterns(words, at, width, count):
    """The patterns of a Match, each a list of alternates as texts."""
    patterns = []
    for _ in range(count):
        alternates = words[at] & notation.LAST
        at += 1
        patterns.append([''.join(notation.word_text(word) for word in words[at + width * i:at + width * (i + 1)])
                         for i in range(alternates)])
        at += width * alternates
    return patterns


def cell_of(words, place, slot, names, end):
    """The cell whose head is at a place and whose record ends before another."""
    operation = notation.OPERATIONS[words[place] & 31]
    kinds, runs = LAYOUTS[operation]
    at = place + 1
    numbers = {kind: words[at + i] & notation.LAST for i, kind in enumerate(kinds)}
    at += len(kinds)
    pins = []
    for role, many in runs:
        count = numbers.get(many, many)
        pins.append(Pin(role, [net_of(word) for word in words[at:at + count]]))
        at += count
    patterns = _patterns(words, at, numbers['n'], numbers['k']) if operation == 'Match' else None
    fields = [notation.word_text(word, names) for word in words[place + 1:end]]
    text = ' '.join([operation] + notation.shortened(fields))
    return Cell(operation, slot, notation.output_width(words, place), text, numbers, pins, place, patterns=patterns)


def _replacement(words, start, end, names):
    if words[start] >> 29 == notation.NUMBER:
        slot = words[start] & notation.LAST
        cell = cell_of(words, start + 1, slot, names, end)
        return Replacement('cell', f'#{names.get(slot, slot)} {cell.text}', start, slot=slot, cell=cell)
    old, new = net_of(words[start]), net_of(words[start + 1])
    return Replacement('net', f'{old.text(names)} {new.text(names)}', start, old=old, new=new)


def fill(result):
    """Puts base, added, cells and replacements of an accepted list into a result."""
    words, names = result.words, result.names
    result.base, result.added = (word & notation.LAST for word in words[:2])
    slots = notation.slots_of_cells(words)
    for start, end in notation.records(words):
        if start in slots:
            cell = cell_of(words, start, slots[start][0], names, end)
            cell.added = cell.slot >= result.base
            result.cells.append(cell)
        elif start >= 4:
            result.replacements.append(_replacement(words, start, end, names))


def owners(result):
    """The cell that each slot belongs to; made once."""
    if not result.owners:
        for cell in result.cells:
            result.owners.update((slot, cell) for slot in range(cell.slot, cell.slot + max(1, cell.width)))
    return result.owners


def reads_past(result, slot):
    """Whether a read of the slot's net is of its past trit: a base Dff's is."""
    cell = owners(result).get(slot)
    return cell is not None and slot < result.base and cell.operation == 'Dff'


def kind_of_pair(edit, owned):
    """What a net replacement is to the order of work: 'equal', 'void', 'flip-flops' or 'ordinary'."""
    if edit.old == edit.new:
        return 'equal'
    operations = [net.slot in owned and owned[net.slot].operation for net in (edit.old, edit.new)]
    if operations[0] == 'Void':
        return 'void'
    return 'flip-flops' if operations == ['Dff', 'Dff'] else 'ordinary'


def joined(result):
    """How many pairs of flip-flops' nets have their pasts joined."""
    owned = owners(result)
    return sum(edit.kind == 'net' and kind_of_pair(edit, owned) == 'flip-flops' for edit in result.replacements)


def choice(result):
    """What the answers unsat and sat are about (docs/UNSAT.md): without a current loop the sources fix every net."""
    if result.looped:
        return 'assignment that fits the cells'
    return 'choice of the sources' + ', alike on joined flip-flops,' * (joined(result) > 0)


def loop_text(result, loop=None):
    """The current loop of a result, or another, in words; of a long one the first reads, and how many more."""
    names = [result.cell_text(slot) for slot in loop or result.loop]
    if len(names) == 1:
        return f'{names[0]} reads itself'
    reads = [f'{one} reads {other}' for one, other in zip(names, names[1:] + names[:1])]
    if len(reads) > MOST_READS:
        reads[MOST_READS - 2:] = [f'and {len(reads) - MOST_READS + 2} more reads lead back to {names[0]}']
    return ', '.join(reads)


def obligations(result):
    """For each obligation, in the order of the query's `and`, its edit's index and what it says. A pair of flip-flops
    has the ordinary obligation too in the ported mode alone."""
    found, owned = [], owners(result)
    for index, edit in enumerate(result.replacements):
        if edit.kind == 'cell':
            if edit.cell.width:
                found.append((index, f'{_cell_name(result, edit.slot, edit.cell.width)} replaced by {edit.cell.text}'))
            continue
        old, new = edit.old.text(result.names), edit.new.text(result.names)
        kind = kind_of_pair(edit, owned)
        if kind == 'flip-flops':
            found.append((index, f'flip-flop {old} replaced by flip-flop {new}: new state against new state'))
        if kind == 'ordinary' or kind == 'flip-flops' and result.mode == PORTED:
            found.append((index, f'{old} replaced by {new}' + (', as it is read' if kind == 'flip-flops' else '')))
    return found


def _cell_name(result, slot, width):
    name = result.slot_text(slot)
    return name.partition('[')[0] if slot in result.names else f'{name} to s{slot + width - 1}' if width > 1 else name


def without_obligation(result):
    """The edits that make no obligation, each with the reason."""
    reasons = {'equal': 'replaces a net by itself, which counts as no edit',
               'void': 'gives a Void its net, which is taken as true and asks nothing'}
    found, owned = [], owners(result)
    for edit in result.replacements:
        if edit.kind == 'cell':
            reason = None if edit.cell.width else 'replaces a cell that has no output'
        else:
            reason = reasons.get(kind_of_pair(edit, owned))
        if reason:
            found.append((edit.text, reason))
    return found
