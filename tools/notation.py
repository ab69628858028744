"""Document 01's notation of a design list, to words and back.

    #2 #0 #0 #1, Input #1, Not #1 s0, s1 s0

A number is #n, a net is 0, 1, X or a slot si, an inverted net has ! before it, a head is its operation's name. A comma or the end of a
line ends a record, and so gives its head the count; a count of its own stands after a colon (Buf:3). A word may be followed by * and how
often it is taken (0*63). opN is an operation by its number, kN a term, kindK:P a word of kind K and payload P. ; begins a comment that
runs to the end of the line.

A cell may have a name before it, with a colon and a space: the list above is also

    #2 #0 #0 #1, in0: Input #1, not1: Not #1 in0, not1 in0

A name stands for the first slot of its cell, name[i] for the slot i further on, name[i..j] for those from i to j;
#name is the slot's number, for a cell's replacement (#not1 Buf #1 in0). A name has letters, digits and _, begins with
no digit and is no other word of the notation. It may be used before its cell. Names are of the text alone: the words
have slots.
"""
import difflib
import re

OPERATIONS = ('Void Buf Not And Or Xor Mux Adc Aig Eq ULt SLt Shl UShr SShr XShr Mul Match Assign Dff IoBuf Input '
              'Note UDiv UMod SDivTrunc SModTrunc').split()
NET, INVERTED, HEAD, NUMBER, TERM = range(5)
LAST = 2 ** 29 - 1
CONSTANTS = {'0': 0, '1': 1, 'X': LAST}


# A list of more words than this is refused for its length, whatever they are.
LONGEST = 16384


class NotWord(Exception):
    """A token that is no word, with its line and column from 1, and why."""

    def __init__(self, token, line, column, reason=None):
        self.token, self.line, self.column = token, line, column
        self.reason = reason or f"'{token}' is no word of the notation"
        super().__init__(f'line {line}, column {column}: {self.reason}')


def word(kind, payload):
    return kind << 29 | payload


def _number(digits, most):
    """A decimal number of at most `most`, or None."""
    return int(digits) if re.fullmatch('[0-9]{1,10}', digits) and int(digits) <= most else None


def _net(text):
    if text in CONSTANTS:
        return CONSTANTS[text]
    slot = _number(text[1:], LAST - 3) if text.startswith('s') else None
    return None if slot is None else slot + 2


def _tagged(kind, payload):
    return None if payload is None else word(kind, payload)


def _head(text, rest):
    name, colon, count = text.partition(':')
    if name in OPERATIONS:
        operation = OPERATIONS.index(name)
    else:
        operation = _number(name[2:], 31) if name.startswith('op') else None
    many = _number(count, LAST // 32) if colon else rest
    return None if operation is None or many is None else word(HEAD, operation + 32 * many)


def _word(text, rest):
    """The word of a token, None if it is none; `rest` words of its record follow."""
    if text.startswith('#'):
        return _tagged(NUMBER, _number(text[1:], LAST))
    if text.startswith('!'):
        return _tagged(INVERTED, _net(text[1:]))
    if text.startswith('kind'):
        kind, colon, payload = text[4:].partition(':')
        kind = _number(kind, 7)
        return None if kind is None or not colon else _tagged(kind, _number(payload, LAST))
    if _net(text) is not None:
        return word(NET, _net(text))
    if re.fullmatch('k[0-9]+', text):
        return _tagged(TERM, _number(text[1:], LAST))
    return _head(text, rest)


def _records(text):
    """The tokens of each record, each with its line and column."""
    record = []
    for number, line in enumerate(text.split('\n'), 1):
        for found in re.finditer(r'[^\s,]+|,', line.partition(';')[0]):
            if found.group() == ',':
                yield record
                record = []
            else:
                record.append((found.group(), number, found.start() + 1))
        yield record
        record = []


def is_name(text):
    """Whether a text can be the name of a cell."""
    return bool(re.fullmatch('[A-Za-z_][A-Za-z0-9_]*', text)) and text not in OPERATIONS and text != 'X' \
        and not re.fullmatch('(s|k|op|kind)[0-9]+', text)


def _use(text):
    """What a token that uses a name says: its word's kind, the name, its first and last slot in the cell; or None."""
    found = re.fullmatch(r'([!#]?)([A-Za-z0-9_]+)(?:\[([0-9]{1,5})(?:\.\.([0-9]{1,5}))?\])?', text)
    if not found or not is_name(found.group(2)):
        return None
    sign, name, first, last = found.groups()
    kind = {'': NET, '!': INVERTED, '#': NUMBER}[sign]
    return kind, name, int(first or 0), int(last or first or 0)


def _expanded(record):
    """The tokens of a record, each as often as it is taken, a run of slots as its slots."""
    for token, line, column in record:
        single, star, times = token.partition('*')
        many = _number(times, LONGEST) if star else 1
        if many is None:
            raise NotWord(token, line, column, f"after the * of '{token}' must stand how often the word is taken, "
                          f'a number up to {LONGEST}')
        use = None if _word(single, 0) is not None else _use(single)
        if use and use[2] > use[3]:
            raise NotWord(token, line, column, f"'{single}' runs downwards: the lower slot stands first")
        run = [(use[0], use[1], at) for at in range(use[2], use[3] + 1)] if use else [None]
        for one in run * many:
            yield single, one, line, column


def _labelled(record, labels, place):
    """The record without the name before its cell, which is noted in `labels` with its place."""
    token, line, column = record[0]
    if not token.endswith(':'):
        return record
    name = token[:-1]
    if not is_name(name):
        raise NotWord(token, line, column, f"'{name}' cannot be the name of a cell: a name has letters, digits and _, "
                      'begins with no digit, and is no other word of the notation')
    if name in labels:
        raise NotWord(token, line, column, f"the name '{name}' is given twice; the first is at line {labels[name][1]}")
    if len(record) < 2 or (_word(record[1][0], 0) or 0) >> 29 != HEAD:
        raise NotWord(token, line, column, f"after the name '{name}' its cell must stand, on the same line")
    labels[name] = place, line
    return record[1:]


def _unknown(token, line, column, names):
    """The refusal of a token that is no word and no known name."""
    said = f"'{token}' is no word of the notation"
    if _use(token):
        said += ', and no cell has this name'
    colon = re.fullmatch('([A-Za-z0-9_]+):([A-Za-z].*)', token)
    if colon and is_name(colon.group(1)):
        apart = f"'{colon.group(1)}: {colon.group(2)}'"
        return NotWord(token, line, column, f'{said}. A space stands after the colon of a name: {apart}')
    known = {name.lower(): name for name in OPERATIONS + ['X'] + list(names)}
    near = difflib.get_close_matches(token.lstrip('!#').partition('[')[0].lower(), known, 1, 0.7)
    return NotWord(token, line, column, said + (f". Is it '{known[near[0]]}'?" if near else ''))


def output_width(words, head):
    """The output width of the cell whose head is at a place, as far as its numbers are there."""
    numbers = [found & LAST if found >> 29 == NUMBER else 0 for found in words[head + 1:head + 3]] + [0, 0]
    operation = _operation_text(words[head])
    if operation in ('Eq', 'ULt', 'SLt', 'Aig'):
        return 1
    if operation in ('Void', 'Note') or operation.startswith('op'):
        return 0
    return {'Adc': numbers[0] + 1, 'Match': numbers[1]}.get(operation, numbers[0])


def slots_of_cells(words):
    """The first slot and the output width of each cell but the new ones of replacements, by the place of its head."""
    found, slot = {}, 0
    for start, _ in records(words):
        if start >= 4 and words[start] >> 29 == HEAD:
            width = output_width(words, start)
            found[start] = slot, width
            slot += max(1, width)
    return found


def _resolved(use, token, line, column, labels, cells):
    """The word of a use of a name."""
    kind, name, at = use
    if name not in labels:
        raise _unknown(token, line, column, labels)
    slot, width = cells.get(labels[name][0], (0, LAST))
    if at >= max(1, width):
        last = f'{name}[{width - 1}]' if width > 1 else f'{name}[0]'
        raise NotWord(token, line, column, f"the cell '{name}' has no slot {at}: its last is {last}")
    return word(kind, slot + at + (0 if kind == NUMBER else 2))


def parse_named(text):
    """The words of a text, for each its line and column, and the names of slots."""
    words, places, labels, uses = [], [], {}, []
    for record in _records(text):
        tokens = list(_expanded(_labelled(record, labels, len(words)))) if record else []
        for at, (token, use, line, column) in enumerate(tokens):
            if use:
                uses.append((len(words), use, token))
            found = 0 if use else _word(token, len(tokens) - 1 - at)
            if found is None:
                raise _unknown(token, line, column, labels)
            words.append(found)
            places.append((line, column))
        if len(words) > 4 * LONGEST:
            break
    cells = slots_of_cells(words)
    for place, use, token in uses:
        words[place] = _resolved(use, token, *places[place], labels, cells)
    return words, places, _slot_names(labels, cells)


def _slot_names(labels, cells):
    """The name of each slot of a named cell."""
    names = {}
    for name, (place, _) in labels.items():
        slot, width = cells.get(place, (0, 0))
        for at in range(max(1, width) if place in cells else 0):
            names[slot + at] = f'{name}[{at}]' if width > 1 else name
    return names


def parse(text):
    """The words of a text, and for each its line and column."""
    return parse_named(text)[:2]


def _net_text(payload, names=None):
    constants = {number: name for name, number in CONSTANTS.items()}
    return constants.get(payload) or (names or {}).get(payload - 2) or f's{payload - 2}'


def _operation_text(head):
    operation = head % 32
    return OPERATIONS[operation] if operation < len(OPERATIONS) else f'op{operation}'


def word_text(found, names=None):
    """A word in notation; `names` has the names of slots."""
    kind, payload = found >> 29, found & LAST
    if kind in (NET, INVERTED):
        return '!' * kind + _net_text(payload, names)
    if kind == HEAD:
        return f'{_operation_text(found)}:{payload // 32}'
    if kind in (NUMBER, TERM):
        return '#k'[kind - NUMBER] + str(payload)
    return f'kind{kind}:{payload}'


def count(head):
    """The count of words that follow a head."""
    return (head & LAST) // 32


def records(words):
    """The first place and the place after the last of the header, each record and each pair, as far as the list goes."""
    if words:
        yield 0, min(4, len(words))
    at = 4
    while at < len(words):
        head = at + (words[at] >> 29 == NUMBER)
        if head < len(words) and words[head] >> 29 == HEAD:
            end = head + 1 + count(words[head])
        else:
            end = at + 2
        yield at, min(end, len(words))
        at = end


def record_tokens(words, start, end, names=None):
    """The tokens of the words from a record's start to its end, a count left out where it is the record's own."""
    tokens = [word_text(found, names) for found in words[start:end]]
    for at in range(start, min(start + 2, end)):
        if start >= 4 and words[at] >> 29 == HEAD and at + 1 + count(words[at]) == end:
            tokens[at - start] = _operation_text(words[at])
    return tokens


def shortened(tokens):
    """Tokens with runs of a cell's slots (a[0..3]) and of three and more equal nets (0*8) put together."""
    made, at = [], 0
    while at < len(tokens):
        slot, run = re.fullmatch(r'(\w+)\[([0-9]+)\]', tokens[at]), 1
        while slot and tokens[at + run:at + run + 1] == [f'{slot.group(1)}[{int(slot.group(2)) + run}]']:
            run += 1
        if run > 1:
            made.append(f'{slot.group(1)}[{slot.group(2)}..{int(slot.group(2)) + run - 1}]')
        else:
            while tokens[at + run:at + run + 1] == [tokens[at]] and not tokens[at].startswith('#'):
                run += 1
            made += [f'{tokens[at]}*{run}'] if run > 2 else tokens[at:at + run]
        at += run
    return made


def show(words, names=None):
    """The notation of a list, a text for the header and for each record or pair."""
    return [' '.join(record_tokens(words, start, end, names)) for start, end in records(words)]
