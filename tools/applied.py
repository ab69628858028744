"""A design with its edits applied, and why what one step says of them may not go for every step.

The edits stand when applied where no net replacements go in a circle, the applied cells have no current loop, and the
edits are timely: conditions (a) to (d) of docs/UNSAT.md.
"""
import design
import notation
from shown import cut
from verdict import PORTED, Net, Reason

GIVEN = ('Input', 'IoBuf')
# The runs of nets of a cell that are constants.
VALUES = ('clear value', 'reset value')
# Of an added flip-flop's net: its chain of replacements ends there.
ENDS = 'ends'


def _key(net):
    """A net without its inversion."""
    return net.slot, net.constant


class Edits:
    """The edits of an accepted design."""

    def __init__(self, result):
        self.result, self.edits, self.owned = result, result.replacements, design.owners(result)
        self.links = {_key(edit.old): index for index, edit in enumerate(self.edits)
                      if edit.kind == 'net' and edit.old != edit.new}
        self.new = {edit.slot: index for index, edit in enumerate(self.edits) if edit.kind == 'cell'}
        self.replaced, self.circle = self._chains()

    def _to(self, net):
        """What a net that is replaced is replaced by."""
        return _key(self.edits[self.links[net]].new)

    def _chains(self):
        """The replaced nets, each after what replaces it; and those of a circle, each before what replaces it."""
        found, seen = [], set()
        for net in self.links:
            path = []
            while net in self.links and net not in seen:
                seen.add(net)
                path.append(net)
                net = self._to(net)
            if net in path:
                return [], path[path.index(net):]
            found += reversed(path)
        return found, []

    def _chain(self, net):
        """The replacements that lead on from a net, one after another."""
        found = []
        while net in self.links:
            found.append(self.links[net])
            net = self._to(net)
        return found

    def _along(self, ended, linked):
        """What is said of each net: `ended` of one that is not replaced, `linked` of one that is, its replacement and
        what is said of that one."""
        said = {}
        for net in self.replaced:
            to = self._to(net)
            said[net] = linked(net, to, said[to] if to in said else ended(to))
        return lambda net: said[net] if net in said else ended(net)

    def flip_flop(self, net):
        """Whether a net is a flip-flop's, of the base or added."""
        return net[0] in self.owned and self.owned[net[0]].operation == 'Dff'

    def past(self, net):
        """Whether a net is read past: that of a flip-flop of the base."""
        return self.flip_flop(net) and net[0] < self.result.base

    def final(self, cell):
        """The new cell in place of a cell, or the cell itself."""
        return self.edits[self.new[cell.slot]].cell if cell.slot in self.new else cell

    def named(self, clock):
        """The nets that the final cells name as their clocks, or otherwise, each with its old cell."""
        for cell in self.result.cells:
            for pin in self.final(cell).pins:
                if pin.role not in VALUES and (pin.role == 'clock') == clock:
                    yield from ((_key(net), cell) for net in pin.nets)

    # The applied list

    def words(self):
        """The applied list: every slot in the base, new cells in place, every net the end of its chain, no edits. A
        Void that is still named is an Input: nothing may read a Void of the base."""
        resolve = self._along(lambda net: net, lambda net, to, end: end)
        named = {resolve(net)[0] for clock in (False, True) for net, _ in self.named(clock)}
        made = notation.parse(f'#{self.result.base + self.result.added} #0 #0 #0')[0]
        given = notation.parse('Input #1')[0]
        for cell in self.result.cells:
            void = cell.operation == 'Void' and cell.slot in named
            made += given if void else self._record(self.final(cell), resolve)
        return made

    def _record(self, cell, resolve):
        """The words of a cell, each net the end of its chain, inversion kept."""
        end = cell.place + 1 + notation.count(self.result.words[cell.place])
        made = self.result.words[cell.place:end]
        at = 1 + len(design.LAYOUTS[cell.operation][0])
        for pin in cell.pins:
            if pin.role not in VALUES:
                made[at:at + len(pin.nets)] = [_word(resolve(_key(net)), net.inverted) for net in pin.nets]
            at += len(pin.nets)
        return made

    # Why they do not stand

    def reasons(self):
        """Why the edits do not stand when applied, whatever the applied cells read: in the order of the list."""
        if self.circle:
            return [self._in_a_circle()]
        found = {}
        for reason in [*self._kinds(), *self._lasting(), *self._in_time(), *self._steady()]:
            found.setdefault((reason.place, reason.condition), reason)
        return [found[key] for key in sorted(found)]

    def text(self, net):
        return Net(*net).text(self.result.names)

    def _by(self, net, index):
        """How a replacement on the chain of a net leads on: 'a is replaced by b'."""
        edit = self.edits[index]
        via = '' if _key(edit.old) == net else f'by way of {self.text(_key(edit.old))} '
        return f'{self.text(net)} is replaced {via}by', self.text(_key(edit.new))

    def _reason(self, condition, index, sentence, instead):
        edit = self.edits[index]
        return Reason(condition, [index], edit.place,
                      f"Applied, the edit '{cut(edit.text)}' does not stand, since {sentence}.", instead)

    def _in_a_circle(self):
        names, found = [self.text(net) for net in self.circle], sorted(self.links[net] for net in self.circle)
        run = ', '.join(f'{one} is replaced by {other}' for one, other in zip(names, names[1:] + names[:1]))
        some = run if len(names) <= design.MOST_READS else f'{", ".join(names[:4])} and {len(names) - 4} more'
        return Reason('circle', found, self.edits[found[0]].place,
                      f'Applied, {_edits(self.result, found)}, since the replacements go in a circle: {some}.',
                      'Take one of them out.')

    def _kinds(self):
        """(a) A flip-flop is replaced by a flip-flop, an IoBuf replaces an Input or IoBuf only, and no other cell is
        replaced by either."""
        for slot, index in self.new.items():
            old, new, name = self.owned[slot], self.edits[index].cell, self.result.cell_text(slot)
            if new.operation == 'IoBuf' and old.operation not in GIVEN:
                yield self._reason('a', index, f'{name} becomes an IoBuf: nothing holds what comes from outside to '
                                   f'what the {old.operation} gave', 'Let an IoBuf replace an Input or an IoBuf alone.')
            elif old.operation == 'Dff' and new.operation != 'Dff':
                yield self._reason('a', index, f'flip-flop {name} becomes a cell that is read as it is now: its '
                                   'readers get it a step earlier', 'Let a flip-flop replace it.')
            elif old.operation != 'Dff' and new.operation == 'Dff':
                yield self._reason('a', index, f'{name} becomes a flip-flop, which is read as it was: its readers get '
                                   'it a step later', 'Let a cell that is no flip-flop replace it.')

    def _lasting(self):
        """(b) A base flip-flop's net resolves to a flip-flop's net or a constant."""
        last = self._along(lambda net: None, lambda net, to, link: self.links[net] if link is None else link)
        for slot in range(self.result.base):
            net = slot, None
            index = last(net) if self.past(net) else None
            end = net if index is None else _key(self.edits[index].new)
            if index is not None and end[0] is not None and not self.flip_flop(end):
                by, to = self._by(net, index)
                yield self._reason('b', index, f'flip-flop {by} {to}, which is no flip-flop: its readers get it a step '
                                   'earlier', 'Let a flip-flop or a constant replace it.')

    def _in_time(self):
        """(c) The chain of any other read net meets a base flip-flop's net, in mode 1 not as the replacement of an
        added flip-flop's, or ends in no flip-flop's net."""
        def linked(net, to, said):
            if self.past(to):
                return self.links[net] if self.flip_flop(net) and self.result.mode != PORTED else None
            return self.links[net] if said == ENDS else said
        late = self._along(lambda net: ENDS if self.flip_flop(net) else None, linked)
        voids = {cell.slot for cell in self.result.cells if cell.operation == 'Void'}
        reads = [((slot, None), None) for slot in range(self.result.base) if slot not in voids]
        for net, cell in reads + list(self.named(clock=False)):
            index = None if self.past(net) else late(net)
            if index == ENDS:
                yield self._reads_added(net, cell)
            elif index is not None:
                yield self._later(net, index)

    def _reads_added(self, net, cell):
        """A final cell that reads an added flip-flop, which nothing replaces."""
        index, name = self.new.get(cell.slot), self.text(net)
        sentence = (f'{self.result.cell_text(cell.slot)} reads {name}, an added flip-flop: it is judged as it is now, '
                    'and applied it is read as it was, a step later')
        instead = f'Let it read a flip-flop of the base, or what {name} is given.'
        if index is not None:
            return self._reason('c', index, sentence, instead)
        return Reason('c', [], cell.place, f"Applied, the cell '{cut(cell.text)}' does not stand, since {sentence}.",
                      instead)

    def _later(self, net, index):
        """A chain that ends in an added flip-flop, or in mode 1 leads from one to a flip-flop of the base."""
        edit = self.edits[index]
        old, new = self.text(_key(edit.old)), self.text(_key(edit.new))
        if self.past(_key(edit.new)):
            return self._reason('c', index, f'{old}, an added flip-flop, is read as it is now, and {new}, which '
                                'replaces it, as it was; mode 1 does not ask whether that is the same',
                                'Ask in mode 0, or let what the flip-flop is given replace the net that is read.')
        by, to = self._by(net, index)
        return self._reason('c', index, f'{by} {to}, an added flip-flop: it is judged as it is now, and applied it is '
                            'read as it was, a step later', f'Let what {to} is given replace it.')

    def _steady(self):
        """(d) On the chain of a kept net, a flip-flop's or a clock, no net but a flip-flop's is replaced by a base
        flip-flop's."""
        def linked(net, to, said):
            return self.links[net] if self.past(to) and not self.flip_flop(net) else said
        hasty = self._along(lambda net: None, linked)
        kept = [((slot, None), 'flip-flop') for slot in self.owned if self.flip_flop((slot, None))]
        for net, what in [(net, 'clock') for net, _ in self.named(clock=True)] + kept:
            index = hasty(net)
            if index is not None:
                by, to = self._by(net, index)
                old = self.text(_key(self.edits[index].old))
                yield self._reason('d', index, f'{what} {by} flip-flop {to}: ' + (
                    'its edges come a step earlier' if what == 'clock' else f'what it is now, {to} was a step before'),
                    f'Leave {old} as it is, and replace its other readers one by one by cells that read {to}.'
                    if what == 'clock' else f'Let {to} itself replace it.')

    def looped(self, loop):
        """The reason that a current loop of the applied cells is, with the edits that lead round it."""
        resolve, found = self._along(lambda net: net, lambda net, to, end: end), []
        for slot, other in zip(loop, loop[1:] + loop[:1]):
            cell = self.final(self.owned[slot])
            nets = [_key(net) for pin in cell.pins if pin.role not in VALUES for net in pin.nets]
            nets = [net for net in nets if self._first_slot(resolve(net)) == other]
            found += [self.new[slot]] if slot in self.new else []
            found += self._chain(nets[0]) if nets and all(net in self.links for net in nets) else []
        found = sorted(set(found))
        sentence = f'the cells then have a current loop: {design.loop_text(self.result, loop)}'
        return Reason('loop', found, self.edits[found[0]].place if found else 0,
                      f'Applied, {_edits(self.result, found)}, since {sentence}.', self._uncoiled(found))

    def _first_slot(self, net):
        return self.owned[net[0]].slot if net[0] in self.owned else None

    def _uncoiled(self, found):
        """What to do instead of edits that lead round a loop."""
        pairs = [self.edits[index] for index in found if self.edits[index].kind == 'net']
        if not pairs:
            return 'Let a new cell read no net that comes from it.'
        old, new = (net.text(self.result.names) for net in (pairs[0].old, pairs[0].new))
        return f'Replace the readers of {old} one by one by cells that read {new}, but not those that {new} comes from.'


def _word(net, inverted):
    slot, constant = net
    payload = notation.CONSTANTS[constant] if slot is None else slot + 2
    return notation.word(notation.INVERTED if inverted else notation.NET, payload)


def _edits(result, found, most=4):
    """Edits by their texts, with the verb: "the edits 'a b' and 'b a' do not stand"."""
    texts = [f"'{cut(result.replacements[index].text)}'" for index in found]
    if len(texts) > most:
        texts[most:] = [f'{len(texts) - most} more']
    if len(texts) == 1:
        return f'the edit {texts[0]} does not stand'
    return f'the edits {", ".join(texts[:-1])} and {texts[-1]} do not stand' if texts else 'the edits do not stand'


def judge(verifier, result):
    """Puts into the result of an accepted design without a current loop whether its edits stand when applied, and why
    not."""
    edits = Edits(result)
    result.reasons = edits.reasons()
    if edits.circle:
        result.applied = False
        return
    result.timely = not result.reasons
    words = edits.words()
    number, slots = verifier.read(words)
    if number == 4:
        result.applied = None
        result.reasons.append(Reason('length', [], 0, f'Applied, the list has {len(words):,} words, of which '
                                     f'{notation.LONGEST:,} are the most: whether its cells have a loop is not known.',
                                     'Take out Voids that are read.'))
        return
    looped, loop = verifier.order(words, slots)
    result.applied = not looped
    if looped:
        result.reasons.append(edits.looped(loop))
