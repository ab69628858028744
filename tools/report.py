"""The report of a verdict: `page(result)` is one HTML page that needs no network and no scripts."""
import os
from html import escape

import boxes
import design
import drawing
import notation
from verdict import BROKEN, HOLDS, LOOP, NOTHING_ASKED, ONE_STEP, REFUSED, SOLVER_WRONG, UNKNOWN

# Each verdict has a class and a shape of its own: colour is never the only sign.
CLASSES = {HOLDS: 'holds', ONE_STEP: 'once', LOOP: 'looped', BROKEN: 'broken', NOTHING_ASKED: 'nothing',
           REFUSED: 'refused', UNKNOWN: 'unknown', SOLVER_WRONG: 'wrong'}
SHAPES = {
    HOLDS: '<circle cx="32" cy="32" r="27"/><path d="M18 33 L28 43 L46 22"/>',
    ONE_STEP: '<path d="M5 57 V43 H24 V29"/><path d="M24 29 H43 V15 H59 V57 H5" stroke-dasharray="4 8"/>'
              '<path d="M9 31 L13 35 L20 25"/>',
    LOOP: '<circle cx="32" cy="32" r="27" stroke-dasharray="7 7.1"/>'
          '<path d="M42 22 A14 14 0 1 0 46 34 M46 14 V24 H36"/>',
    BROKEN: '<path d="M21 5 H43 L59 21 V43 L43 59 H21 L5 43 V21 Z"/><path d="M21 21 L43 43 M43 21 L21 43"/>',
    NOTHING_ASKED: '<rect x="6" y="12" width="52" height="40" rx="3" stroke-dasharray="7 8"/>',
    REFUSED: '<rect x="6" y="6" width="52" height="52" rx="4"/><path d="M17 32 H47"/>',
    UNKNOWN: '<path d="M32 4 L60 32 L32 60 L4 32 Z"/>'
             '<path d="M25 26 Q25 19 32 19 Q39 19 39 26 Q39 31 32 34 V38 M32 45 V45.1"/>',
    SOLVER_WRONG: '<path d="M32 5 L61 57 H3 Z"/><path d="M32 24 V40 M32 48 V48.1"/>',
}
with open(os.path.join(os.path.dirname(os.path.abspath(__file__)), 'report.css'), encoding='utf-8') as _file:
    STYLE = _file.read()


def _many(number, one):
    return f'{number:,} {one}' + ('' if number == 1 else 's')


def asked(result):
    """What was asked, in a sentence."""
    if result.verdict == REFUSED:
        return 'Nothing was asked: the list is refused before any question is made.'
    if not result.obligations:
        return 'Nothing was asked: the design has no obligation.'
    edits = len({each.replacement for each in result.obligations})
    return (f'Asked: can some {design.choice(result)} break {_breakable(len(result.obligations))} '
            f'of {_many(edits, "edit")}?')


def _breakable(obligations):
    return 'the one obligation' if obligations == 1 else f'any of the {obligations:,} obligations'


def _verdict(result):
    word = result.verdict
    sentences = [each for each in result.sentences if not each.startswith('Asked:')]
    broken = [each for each in result.obligations if each.state is False and each.shown]
    if result.verdict == BROKEN and broken:
        sentences.append(f'{broken[0].edit}: {broken[0].shown}.')
    text = ''.join(f'<p>{escape(each)}</p>' for each in sentences)
    mode = f'<small> {result.in_mode}</small>' if result.in_mode else ''
    return (f'<header class="verdict {CLASSES[word]}"><svg viewBox="0 0 64 64" aria-hidden="true">{SHAPES[word]}</svg>'
            f'<div><h1>{word}{mode}</h1><p class="asked">{asked(result)}</p>{text}</div></header>')


def _hints(result):
    """What to beware of, and the page of the course that tells more."""
    if not result.hints:
        return ''
    parts = [f'<p>{escape(sentence)}{f" See <code>{escape(where)}</code>." if where else ""}</p>'
             for sentence, where in result.hints]
    return '<div class="hints">' + ''.join(parts) + '</div>'


# The design and its fault

def _place(result):
    """The line at which a list is refused, from 1, and the column; of words, the record and its first column."""
    if result.verdict != REFUSED or result.text is not None:
        return result.line, result.column
    records = list(notation.records(result.words))
    found = [at for at, (start, end) in enumerate(records, 1) if start <= (result.place or 0) < end]
    return (found[0] if found else len(records)), 1


def _design(result):
    lines = notation.show(result.words) if result.text is None else result.text.rstrip('\n').split('\n')
    number, column = _place(result)
    shown = [escape(line) for line in lines]
    if result.verdict == REFUSED and number and number <= len(shown):
        caret = ' ' * (column - 1) + '^ fault ' + str(result.fault)
        shown.insert(number, f'<span class="caret">{caret}</span>')
    body = '<pre>' + '\n'.join(shown) + '</pre>'
    if result.verdict != REFUSED and len(lines) > 24:
        body = f'<details><summary>{len(lines):,} lines</summary>{body}</details>'
    return f'<h2>The design</h2>{_fault(result)}{body}'


def _fault(result):
    if result.verdict != REFUSED or result.fault is None:
        return ''
    where = f', line {result.line}, column {result.column}' if result.line else ''
    word = ''
    if result.fault < 14 and result.place < len(result.words):
        word = f', which is {notation.word_text(result.words[result.place], result.names)}'
    sentence = f'Fault {result.fault} at word {result.place}{word}{where}.'
    return f'<p class="asked">{escape(sentence)}</p>'


# The drawing

LEGEND = {'cell': 'cell of the base', 'source': 'Input, IoBuf or Void: a source', 'past': 'past state: a source',
          'added': 'edit: an added cell', 'edit': 'edit: a new cell, a replaced net or Void',
          'kept': 'edit that holds', 'broken': 'edit that is broken in the example',
          'plain': 'an edit that counts as none'}


def _legend(result, drawn):
    """What the boxes and signs of the drawing mean, as far as they occur."""
    kinds = {box.kind for box in drawn}
    parts = [f'<li>{_sample(kind)}{text}</li>' for kind, text in LEGEND.items() if kind in kinds]
    shown = {trit for cell in result.cells for age in ('now', 'was') for trit in boxes.trits_of(result, cell, age)}
    texts = {False: 'X, undefined', True: 'X with a 1 hidden under it'}
    parts += [f'<li>{_trit("X", hidden)} {text}</li>' for hidden, text in texts.items() if ('X', hidden) in shown]
    return '<ul class="legend">' + ''.join(parts) + '</ul>'


def _sample(kind):
    return (f'<svg width="30" height="18" aria-hidden="true"><g class="box {kind}">'
            '<rect class="frame" x="2" y="2" width="26" height="14" rx="3"/></g></svg>')


def _drawing(result):
    """The drawing of a design; of a large one the part at a broken edit or a loop, and the whole in a fold-out."""
    if not result.cells and not result.replacements:
        return ''
    whole = drawing.draw(result)
    many = f'{_many(len(result.cells), "cell")} and {_many(len(result.replacements), "edit")}'
    if whole and len(whole.boxes) <= drawing.FEW:
        return '<h2>Drawing</h2>' + _drawn(result, whole)
    part = drawing.draw(result, part=True)
    parts = ['<h2>Drawing</h2>']
    if part:
        broken = any(box.kind == 'broken' for box in part.boxes)
        sentence = f'The design has {many}. These are the {len(part.boxes)} boxes nearest to '
        sentence += 'the first broken edit.' if broken else 'its current loop.'
        parts.append(f'<p>{sentence}</p>{_drawn(result, part)}')
    if whole and part:
        parts.append(f'<details><summary>The whole design: {len(whole.boxes)} boxes</summary>{_drawn(result, whole)}'
                     '</details>')
    elif whole:
        parts.append(_drawn(result, whole))
    else:
        parts.append(f'<p>{many} are more than a drawing can show: the tables below have all of them.</p>')
    return ''.join(parts)


def _drawn(result, found):
    """A drawing with its legend and what is to be known of its lines."""
    sentences = ['Reads run from left to right. Nets stand in the order of the notation, lowest first; trits highest '
                 'first.']
    if any(wire.style == 'past' for wire in found.wires):
        sentences.append('A dotted line reads the past.')
    if any(wire.named for wire in found.wires):
        sentences.append(f'Thick lines are a current loop: {design.loop_text(result)}.')
    if any(wire.looped and not wire.named for wire in found.wires):
        sentences.append('Dashed red lines lie on other loops.')
    if found.stubs:
        sentences.append('A short line into a box comes from a net that is drawn elsewhere or not at all, and that the '
                         'box names.')
    return (f'<p>{escape(" ".join(sentences))}</p>{_legend(result, found.boxes)}'
            f'<div class="scroll" tabindex="0">{drawing.svg(found)}</div>')


# Tables

def _trit(text, hidden):
    css = {'0': 'zero', '1': 'one', 'X': 'undefined', None: 'absent'}[text] + (' hidden' if hidden else '')
    title = ' title="a 1 is hidden under this X"' if hidden else ''
    return f'<span class="trit {css}"{title}>{text or "·"}</span>'


def _trits(shown):
    """Trits in fours, counted from the lowest."""
    first = len(shown) % 4
    groups = ([shown[:first]] if first else []) + [shown[at:at + 4] for at in range(first, len(shown), 4)]
    return ''.join('<span class="four">' + ''.join(_trit(*each) for each in group) + '</span>' for group in groups)


def _table(title, heads, rows):
    head = ''.join(f'<th>{each}</th>' for each in heads)
    return (f'<h2>{title}</h2><div class="wide"><table><thead><tr>{head}</tr></thead><tbody>' + '\n'.join(rows)
            + '</tbody></table></div>')


def _obligations(result):
    if not result.obligations:
        return ''
    unjudged = {HOLDS: '✓ no case breaks it', ONE_STEP: 'kept for one step', LOOP: 'with a loop, nothing is shown'}
    states = {True: ('kept', '✓ holds in the example'), False: ('broken', '✗ broken in the example'),
              None: ('', unjudged.get(result.verdict, 'not judged'))}
    example = any(each.shown for each in result.obligations)
    rows = []
    for number, each in enumerate(result.obligations):
        css, text = states[each.state]
        shown = f'<td>{escape(each.shown or "")}</td>' if example else ''
        rows.append(f'<tr class="{css}"><td>{number}</td><td>{escape(each.edit)}</td><td class="mono">k{each.term}</td>'
                    f'<td class="state">{text}</td>{shown}</tr>')
    return _table('Obligations', ['no.', 'edit', 'term', 'state'] + ['what its nets show'] * example, rows)


def _cells(result):
    if not result.cells:
        return ''
    columns = [age for age in ('was', 'now') if any(getattr(trit, age) for trit in result.trits.values())]
    hidden = any('X' in (trit.now, trit.was) for trit in result.trits.values())
    heads = ['slots', 'cell'] + columns + ['hidden under X'] * hidden
    rows = [_cell_row(result, cell, columns, hidden) for cell in result.cells]
    return _table("Cells and nets in the solver's example" if columns else 'Cells', heads, rows)


def _cell_row(result, cell, columns, hidden):
    first, last = cell.slot, cell.slot + max(1, cell.width) - 1
    slots = f's{first}' if first == last else f's{first}..s{last}'
    name = boxes.slots_text(result, cell) + ': ' if first in result.names else ''
    text = escape(name + cell.text) + (' <span class="tag">added</span>' if cell.added else '')
    ages = [(age, boxes.trits_of(result, cell, age)) for age in columns]
    cells = ''.join(f'<td class="trits">{_trits(shown)}</td>' for _, shown in ages)
    if hidden:
        cells += f'<td class="mono">{", ".join(filter(None, (_hidden(*each) for each in ages)))}</td>'
    return f'<tr><td class="mono slot">{slots}</td><td class="mono">{text}</td>{cells}</tr>'


def _hidden(age, shown):
    """The bits under the X of a cell's trits, highest first, with - where there is no X."""
    if all(text != 'X' for text, _ in shown):
        return ''
    return f'{age} ' + ''.join(str(int(hidden)) if text == 'X' else '-' for text, hidden in shown)


def _script(result):
    if not result.script:
        return ''
    lines = _many(result.script.count('\n'), 'line')
    given = f'The {lines} that the solver was given' if result.solver else f'The {lines}, which no solver was given'
    return f'<h2>Script</h2><details><summary>{given}</summary><pre>{escape(result.script)}</pre></details>'


def _footer(result):
    parts = [_many(number, name[:-1]) for name, number in result.counts.items()]
    parts += [f'solver {asked.version or asked.name}: {asked.answer or "no answer"}' for asked in result.solvers]
    if result.seconds is not None:
        parts.append(f'{result.seconds:.2f} s')
    return f'<footer>{escape(", ".join(parts))}.</footer>' if parts else ''


def page(result):
    """The page of a result."""
    name = 'standard input' if result.source == '-' else os.path.basename(result.source)
    headline = ' '.join(filter(None, (result.verdict, result.in_mode)))
    body = '\n'.join(part for part in (
        f'<p class="file">{escape(name)}</p>', _verdict(result), _hints(result), _drawing(result), _obligations(result),
        _cells(result), _design(result), _script(result), _footer(result)) if part)
    return (f'<!DOCTYPE html>\n<html lang="en"><head><meta charset="utf-8">\n'
            f'<meta name="viewport" content="width=device-width, initial-scale=1">\n'
            f'<title>{headline}: {escape(name)}</title>\n<style>{STYLE}</style></head>\n'
            f'<body>\n{body}\n</body></html>\n')
