"""Results as text on a terminal, and as JSON."""
import dataclasses
import os
import shutil
import textwrap

import design
import faults
import notation
import source
from verdict import BROKEN, HOLDS, LOOP, NOT_CHECKED, NOTHING_ASKED, ONE_STEP, REFUSED, SOLVER_WRONG, UNKNOWN

COLOURS = {HOLDS: '1;32', BROKEN: '1;31', REFUSED: '1;35', NOTHING_ASKED: '1;33', UNKNOWN: '1;36',
           SOLVER_WRONG: '1;37;41', NOT_CHECKED: '1;34', LOOP: '1;30;43', ONE_STEP: '1;30;46'}


# Rows of a table of cells; of obligations half as many.
MOST_ROWS = 40


def coloured(stream):
    """Whether colours go to a stream: to a terminal, unless NO_COLOR is set."""
    return stream.isatty() and not os.environ.get('NO_COLOR') and os.environ.get('TERM') != 'dumb'


def paint(verdict, colours):
    return f'\x1b[{COLOURS[verdict]}m{verdict}\x1b[0m' if colours else verdict


def columns(stream):
    """The columns that lines are broken at: a terminal's, or what COLUMNS says; None elsewhere."""
    said = os.environ.get('COLUMNS', '')
    if not stream.isatty() and not (said.isdecimal() and int(said)):
        return None
    return max(24, shutil.get_terminal_size().columns)


def wrapped(text, width, indent='', hanging=None):
    """A text in lines of at most a width, broken between words; in one line where there is no width."""
    if width is None:
        return [(indent + text).rstrip()]
    return textwrap.wrap(text, width, initial_indent=indent, subsequent_indent=indent if hanging is None else hanging,
                         break_long_words=False, break_on_hyphens=False) or [indent.rstrip()]


def rows_of(rows, indent='  ', width=None):
    """The lines of each row of a table; the last column is as long as it is, and is broken at a width."""
    rows = [[str(part) for part in row] for row in rows]
    widths = [max(len(row[at]) for row in rows) for at in range(len(rows[0]) - 1)] if rows else []
    made = []
    for row in rows:
        start = indent + ''.join(part.ljust(most) + '  ' for part, most in zip(row, widths))
        if width and width - len(start) < 20:
            made.append([start.rstrip()] + wrapped(row[-1], width, indent + '    '))
        else:
            made.append(wrapped(row[-1], width, start, ' ' * len(start)))
    return made


def table(rows, indent='  ', width=None):
    """Rows of texts in columns."""
    return [line for lines in rows_of(rows, indent, width) for line in lines]


def run_of(cell):
    """The slots of a cell: 's0' or 's0-s3'."""
    last = cell.slot + max(1, cell.width) - 1
    return f's{cell.slot}' if last == cell.slot else f's{cell.slot}-s{last}'


def label(result, cell):
    """A cell's record with its name before it."""
    name = result.names.get(cell.slot, '').partition('[')[0]
    return f'{name}: {cell.text}' if name else cell.text


def cut(text, most=60):
    return text if len(text) <= most else text[:most - 3] + '...'


def near(result, most):
    """The cells that a table of at most so many shows: those of false obligations, and then what they read."""
    owned, slots = design.owners(result), []
    for one in result.obligations:
        if one.state is False and one.replacement is not None:
            edit = result.replacements[one.replacement]
            nets = [net for pin in edit.cell.pins for net in pin.nets] if edit.cell else [edit.old, edit.new]
            slots += [edit.slot] * (edit.cell is not None) + [net.slot for net in nets]
    kept = {}
    for slot in slots:
        if slot in owned and owned[slot].slot not in kept and len(kept) < most:
            kept[owned[slot].slot] = owned[slot]
            slots += [net.slot for pin in owned[slot].pins for net in pin.nets]
    return [kept[slot] for slot in sorted(kept)]


def example(result, all_of_it=False, width=None):
    """The table of cells with their trits, highest first; of a large design the part where an obligation is false."""
    few = all_of_it or len(result.cells) <= MOST_ROWS
    cells = result.cells if few else near(result, MOST_ROWS)
    ages = [age for age in ('was', 'now') if any(getattr(trit, age) for trit in result.trits.values())]
    under = any(trit.hidden_now is not None or trit.hidden_was is not None for trit in result.trits.values())
    rows = [['slots', 'cell'] + ages + ['under X'] * under]
    for cell in cells:
        trits = [result.trits.get(slot) for slot in reversed(range(cell.slot, cell.slot + max(1, cell.width)))]
        if any(trits):
            rows.append([run_of(cell), label(result, cell)]
                        + [''.join(getattr(trit, age, None) or '-' for trit in trits) for age in ages]
                        + [hidden(trits, ages)] * under)
    beside = sum(2 + max(len(row[at]) for row in rows) for at in range(len(rows[0])) if at != 1)
    for row in rows:
        row[1] = cut(row[1], min(60, max(12, width - 2 - beside)) if width else 60)
    left = len(result.cells) - len(cells)
    return table(rows) + [f'  {left} more cells; --all shows them'] * (left > 0)


def hidden(trits, ages):
    """The bits under the Xs of a cell, highest first, for each age that has one."""
    texts = []
    for age in ages:
        bits = [getattr(trit, 'hidden_' + age, None) for trit in trits]
        if any(bit is not None for bit in bits):
            texts.append(age + ' ' + ''.join('-' if bit is None else str(int(bit)) for bit in bits))
    return ', '.join(texts)


def obligations(result, all_of_it=False, width=None):
    """The obligations with their states, the false ones first; of many, some."""
    unjudged = {HOLDS: 'holds', ONE_STEP: 'one step'}.get(result.verdict, 'asked')
    states = {True: 'true', False: 'FALSE', None: unjudged}
    found = sorted(result.obligations, key=lambda one: one.state is not False)
    kept = found if all_of_it else found[:MOST_ROWS // 2]
    rows = [[states[one.state], one.edit + (f': {one.shown}' if one.shown and one.state is False else '')]
            for one in kept]
    left = [states[one.state] for one in found[len(kept):]]
    more = ' and '.join(f"{left.count(state)} more of '{state}'" for state in dict.fromkeys(left))
    return table(rows, width=width) + [f'  {more}; --all shows them'] * (more != '')


def fault(result, width=None):
    """Where the fault of a refused list stands, with carets."""
    most = max(20, width - 4) if width else 100
    if result.text is not None:
        lines = source.caret(result.text, result.line, result.column, min(100, most))
        where = f'line {result.line}, column {result.column}'
    else:
        lines, where = _in_words(result.words, result.place, min(100, most)), 'the list'
    last = ', past the last' if result.place >= len(result.words) else ''
    return [f'  {where}, word {result.place}{last}:', ''] + ['    ' + line for line in lines]


def _in_words(words, place, most):
    """The record that holds a word, in notation, with carets under it."""
    spans = list(notation.records(words)) or [(0, 0)]
    start, end = next((span for span in spans if span[0] <= place < span[1]), spans[-1])
    tokens = notation.record_tokens(words, start, end)
    before = ' '.join(tokens[:place - start]) + ' ' * (place > start)
    size = len(tokens[place - start]) if place < end else 1
    cutting = max(0, len(before) - most * 3 // 5)
    return [(' '.join(tokens) + ' ')[cutting:cutting + most], ' ' * (len(before) - cutting) + '^' * size]


def whole(result, colours, all_of_it=False, width=None):
    """A result in full; of long lists a part, unless all of it is asked for."""
    lines = wrapped(f'{result.verdict}  {result.title}', width, hanging='  ')
    lines[0] = paint(result.verdict, colours) + lines[0][len(result.verdict):]
    lines.append('')
    for sentence in result.sentences:
        lines += wrapped(sentence, width, '  ')
    if result.verdict == REFUSED:
        lines += [''] + fault(result, width)
    if result.obligations:
        lines += [''] + obligations(result, all_of_it, width)
    if result.verdict in (BROKEN, SOLVER_WRONG) and result.trits:
        lines += [''] + example(result, all_of_it, width)
    if result.hints:
        lines.append('')
        for sentence, page in result.hints:
            lines += wrapped(f'Hint: {sentence}', width, '  ', ' ' * 8) + [f'        See {page}.'] * (page is not None)
    return '\n'.join(lines)


def short(result):
    """What a table of many says of a result."""
    asked, false = len(result.obligations), sum(one.state is False for one in result.obligations)
    where = f', line {result.line}, column {result.column}' if result.line else ''
    if result.verdict == REFUSED:
        return f'fault {result.fault} at word {result.place}{where}'
    if result.verdict == BROKEN:
        return f'{false} of {asked} obligations false'
    if result.verdict in (HOLDS, NOTHING_ASKED):
        return f'{asked} obligation' + 's' * (asked != 1)
    if result.verdict == ONE_STEP:
        return result.reasons[0].sentence
    return (where[2:] + ': ' if where else '') + result.sentences[0]


def many(results, colours, width=None):
    """A table of results, and how many designs there are of each verdict."""
    lines = []
    for result, (first, *rest) in zip(results, rows_of([[result.verdict, result.title, short(result)]
                                                        for result in results], '', width)):
        lines += [paint(result.verdict, colours) + first[len(result.verdict):], *rest]
    found = [result.verdict for result in results]
    parts = [f'{found.count(verdict)} {paint(verdict, colours)}' for verdict in COLOURS if verdict in found]
    mode = next((f', {result.in_mode}' for result in results if result.in_mode), '')
    return '\n'.join(lines) + f'\n\n{len(results)} designs{mode}: ' + ', '.join(parts)


def as_json(result):
    """A result for scripts."""
    keep = ('source', 'verdict', 'status', 'loop', 'looped', 'applied', 'timely', 'two_valued', 'sentences', 'hints',
            'fault', 'place', 'line', 'column', 'counts', 'solver', 'seconds', 'mode')
    found = {key: getattr(result, key) for key in keep}
    for key in ('reasons', 'solvers', 'obligations'):
        found[key] = [dataclasses.asdict(one) for one in getattr(result, key)]
    found['trits'] = {result.slot_text(slot): dataclasses.asdict(trit) for slot, trit in sorted(result.trits.items())}
    return found


def comments(result, spans):
    """What each record of a list is, for a comment after it."""
    words, names = result.words, result.names
    slots = notation.slots_of_cells(words)
    found = []
    for start, end in spans:
        if start < 4:
            sizes = [word & notation.LAST for word in words[:end]]
            parts = [f'{size} {one if size == 1 else many}' for size, (one, many) in zip(sizes, HEADER)]
            found.append(', '.join(parts) if all(word >> 29 == notation.NUMBER for word in words[:end]) else '')
        elif start in slots:
            slot, width = slots[start]
            name = names.get(slot, '').partition('[')[0]
            run = f's{slot}' + (f' to s{slot + width - 1}' if width > 1 else '')
            found.append(run + (f', {name}' if name else ''))
        elif words[start] >> 29 == notation.NUMBER and end - start > 2:
            found.append(f'replaces the cell at s{words[start] & notation.LAST}')
        elif end - start == 2 and all(word >> 29 == notation.NET for word in words[start:end]):
            old, new = (notation.word_text(word, names) for word in words[start:end])
            found.append(f'{old} is replaced by {new}')
        else:
            found.append('')
    return found


HEADER = (('slot of the base', 'slots of the base'), ('added slot', 'added slots'),
          ('cell replacement', 'cell replacements'), ('net replacement', 'net replacements'))


def listing(result):
    """A list in notation, a record a line, with what each record is in a comment."""
    spans = list(notation.records(result.words))
    texts = [' '.join(notation.record_tokens(result.words, start, end)) for start, end in spans]
    width = max([len(text) for text in texts if len(text) <= 60], default=0)
    return [f'{text.ljust(width)}  ; {comment}' if comment else text
            for text, comment in zip(texts, comments(result, spans))]


def explained(number, width=None):
    """A fault in two sentences, with the smallest list that has it."""
    first, second, listed = faults.EXPLAINED[number]
    lines = wrapped(f'Fault {number}: {faults.FAULTS[number]}.', width, hanging='  ')
    return '\n'.join(lines + wrapped(first, width, '  ') + wrapped(second, width, '  ') + ['', f'    {listed}'])
