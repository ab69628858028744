"""Where a result shows what surprises people, a sentence on it and the page of the course that tells more."""
import glob
import os

import design
from verdict import BROKEN, LOOP, ONE_STEP

GIVEN = ('Input', 'IoBuf')


def sources(result):
    """The slots whose current net is a source: it is not worked out from others."""
    replaced = {edit.old.slot for edit in result.replacements if edit.kind == 'net' and edit.old != edit.new}
    return {slot for slot, cell in design.owners(result).items()
            if cell.operation in GIVEN or not cell.width and not (cell.operation == 'Void' and slot in replaced)}


def undefined(result):
    """The sources that are X in the example, as texts."""
    given = sources(result)
    return [result.slot_text(slot) + (' (before)' if slot not in given or trit.now != 'X' else '')
            for slot, trit in sorted(result.trits.items()) if trit.was == 'X' or slot in given and trit.now == 'X']


def _inner_clocks(result):
    """The flip-flops whose clock is the output of plain logic."""
    owned, new = design.owners(result), [edit.cell for edit in result.replacements if edit.kind == 'cell']
    plain = {slot for slot, cell in owned.items() if cell.operation not in GIVEN + ('Void', 'Dff') and cell.width}
    return [result.slot_text(cell.slot).partition('[')[0] for cell in result.cells + new
            if cell.operation == 'Dff' and cell.width and cell.pins[0].nets[0].slot in plain]


def _twins(result):
    """The pairs of flip-flops that fail only against the new one's old state, as in the ported mode alone: their edits'
    indexes."""
    states = {}
    for one in result.obligations:
        states.setdefault(one.replacement, []).append(one.state)
    return [index for index, found in states.items() if found == [True, False]]


def _read_later(result):
    """The pairs in which an added flip-flop is replaced by one of the base, likewise: what reads the first as it is now
    reads the second as it was."""
    owned = design.owners(result)
    return [index for index, edit in enumerate(result.replacements)
            if edit.kind == 'net' and design.kind_of_pair(edit, owned) == 'flip-flops'
            and owned[edit.old.slot].added and not owned[edit.new.slot].added]


def _ages(result, index):
    edit = result.replacements[index]
    old, new = result.slot_text(edit.old.slot), result.slot_text(edit.new.slot)
    return f'{old}, an added flip-flop, is read as it is now, and {new}, which replaces it, as it was'


def of(result, root):
    """Sentences, each with its page, None where the course has none."""
    found, given = [], undefined(result) if result.verdict == BROKEN else []
    if given:
        some = ', '.join(given[:3]) + (' and others' if len(given) > 3 else '')
        found.append((f'In the example {some} {"is" if len(given) == 1 else "are"} X.'
                      + (' Where every source is 0 or 1, the edits hold.' if result.two_valued else ''), 'a'))
    if result.verdict == BROKEN and _inner_clocks(result):
        found.append((f'The clock of {", ".join(_inner_clocks(result)[:3])} comes from a cell, and what a cell gave '
                      'before is free.', 'c'))
    later, twins = _read_later(result), _twins(result) if result.verdict == BROKEN else []
    if set(twins) - set(later):
        found.append(('A flip-flop replaced by another is held to its old state too, and only this fails; --mode 1 '
                      'does not ask it.', 'e'))
    found += [(_ages(result, index) + '.', 'e') for index in twins if index in later][:1]
    if result.verdict == ONE_STEP:
        found.append(('A verdict judges one step, with the edits pending. The netlist is run with the edits applied.',
                      'i'))
    if result.verdict == LOOP:
        found.append(('With a loop a wrong edit may get unsat too.', '04'))
    elif result.looped:
        found.append((f'The cells have a current loop: {design.loop_text(result)}. Of some sources they may have no '
                      'assignment, or more than one.', '04'))
    return [(sentence, _page(root, prefix)) for sentence, prefix in found]


def _page(root, prefix):
    pages = sorted(glob.glob(os.path.join(glob.escape(root), 'course', prefix + '-*.md')))
    return os.path.relpath(pages[0], root) if pages else None
