"""From a design to its verdict: the verifier's script to a solver, and its reply back through the verifier."""
import os
import re
import shlex
import time
from dataclasses import dataclass, replace

import applied
import core
import design
import hints
import notation
import solver
from faults import FAULTS
from verdict import (BROKEN, HOLDS, LOOP, NOTHING_ASKED, ONE_STEP, REFUSED, SOLVER_WRONG, UNKNOWN, Asked, Obligation,
                     Trit)

TRITS = '01X'
# What is said after unsat.
UNSAT = (HOLDS, ONE_STEP, LOOP)
# Of what several solvers tell, the first of these counts: every one must answer, or any.
EVERY, ANY = (SOLVER_WRONG, BROKEN, UNKNOWN, *UNSAT), (SOLVER_WRONG, BROKEN, *UNSAT, UNKNOWN)
# Reasons that are told.
MOST_REASONS = 5


@dataclass
class Answer:
    """A solver's reply, and what the verifier's reader makes of it."""
    reply: solver.Reply
    number: int      # the fault of the reply, 0 if it has none
    value: int       # its place, or 1 for sat and 0 for unsat
    read: bytes      # after sat, the trits that the script itself asks for
    values: dict     # the values of the names that were asked besides, None where they cannot be read


def count(number, one, many=None):
    """A number with its noun: '1 edit', '2 edits', 'no edits'."""
    return f'{number or "no"} {one if number == 1 else many or one + "s"}'


def refuse(result, number, place):
    """The verdict of a list that the verifier refuses."""
    result.verdict, result.fault, result.place = REFUSED, number, place
    if result.text is not None:
        result.line, result.column = _position(result, place)
    sentence = FAULTS[number]
    if number == 1:
        sentence = 'words remain after the end of the list' if place < len(result.words) else 'the list ends early'
    result.sentences = [f'Fault {number}: {sentence}.']
    if not result.words:
        result.sentences.append('The file has no words at all.')
    elif place < 4 and number in (1, 2, 4):
        result.sentences.append('A list begins with four numbers: #base #added #cellreps #netreps.')
    elif number in (1, 2, 6, 11):
        result.sentences += miscounted(result.words)


def miscounted(words):
    """For each number of the header that differs from what the list has, a sentence that tells both."""
    slots = sum(max(1, width) for _, width in notation.slots_of_cells(words).values())
    edits = [words[start] >> 29 == notation.NUMBER for start, _ in notation.records(words)
             if start >= 4 and words[start] >> 29 != notation.HEAD]
    base, added, cell_edits, net_edits = (word & notation.LAST for word in words[:4])
    numbers = ((base + added, slots, 'slot'), (cell_edits, edits.count(True), 'cell replacement'),
               (net_edits, edits.count(False), 'net replacement'))
    return [f'The header speaks of {count(said, kind)}, but the list seems to have {found or "none"}.'
            for said, found, kind in numbers if said != found]


def _position(result, place):
    """Line and column of a word of the text; of one past the last, the place after it."""
    if place < len(result.places):
        return result.places[place]
    if not result.places:
        return 1, 1
    line, column = result.places[-1]
    shown = result.text.split('\n')[line - 1]
    return line, column + len(re.match(r'[^\s,;]*', shown[column - 1:]).group())


def order(verifier, result):
    """Refuses a list, or does as `ordered`."""
    number, slots = verifier.read(result.words)
    if number:
        refuse(result, number, slots)
        return None
    return ordered(verifier, result, slots)


def ordered(verifier, result, slots):
    """Fills in the current loop of an accepted list, and returns its first slots, or those of all nodes in order."""
    looped, found = verifier.order(result.words, slots)
    result.loop = found if looped else []
    return found


def verify(verifier, result):
    """Refuses a list, or fills in its cells, loop, counts, obligations and script, and returns its calls and marks."""
    number, asked, (terms, temporaries, words) = verifier.counts(result.words, result.mode)
    if number:
        refuse(result, number, asked)
        return None
    design.fill(result)
    slots = verifier.read(result.words)[1]
    ordered(verifier, result, slots)
    calls, recorded = verifier.verify(result.words, words, slots, result.mode)
    result.script = verifier.script(calls, recorded, terms).decode('ascii')
    query = core.query(calls) if asked else []
    edits = design.obligations(result)
    if len(edits) != len(query):
        edits = [(None, 'an edit of the list')] * len(query)
    result.obligations = [Obligation(text, index, term) for (index, text), term in zip(edits, query)]
    result.counts = {'slots': slots, 'terms': terms, 'temporaries': temporaries, 'words': words,
                     'edits': len(result.replacements), 'obligations': len(query)}
    if not asked:
        nothing(result)
    return calls, recorded


def nothing(result):
    """The verdict of a list without an obligation."""
    result.verdict = NOTHING_ASKED
    result.sentences = ['The list has no obligation: a solver would have nothing to answer, and nothing is proved.']
    result.sentences.append(f'It has {count(len(result.replacements), "edit")}'
                            + (', and none of them makes an obligation.' if result.replacements else '.'))
    result.sentences += _unasked(result)


def in_mode(result):
    """What the inductive mode is to a design."""
    pairs = design.joined(result)
    if not pairs:
        return "No flip-flop's net is replaced by a flip-flop's, so that mode 1 asks what mode 0 does."
    verb = 'is' if pairs == 1 else 'are'
    return f'{count(pairs, "pair")} of flip-flops {verb} judged by the new states alone, as mode 1 has it.'


def reasons(result):
    """Why the edits of a result do not stand when applied, with what to do instead; of many the first."""
    told = [f'{one.sentence} {one.instead}' for one in result.reasons[:MOST_REASONS]]
    left = len(result.reasons) - len(told)
    return told + [f'{count(left, "more reason", "more reasons")} of this kind.'] * (left > 0)


def answered(asked):
    """What a solver answered, in a sentence."""
    return f'{asked.name} answered {asked.answer}.' if asked.answer else f'{asked.name} gave no answer.'


def _unasked(result):
    return [f"The edit '{text}' {reason}." for text, reason in design.without_obligation(result)]


class Checker:
    """Asks the verifier and one or more solvers."""

    def __init__(self, verifier, commands, seconds, solvers, say=None, any_of=False):
        """`commands` gives the solvers' commands, and is called only where something is asked; `any_of` says whether
        one of them is enough."""
        self.verifier, self.commands, self.seconds, self.solvers = verifier, commands, seconds, solvers
        self.gravity = ANY if any_of else EVERY
        self.say = say or (lambda sentence, passing=False: None)

    def check(self, result):
        """Puts the verdict into a result that holds a design."""
        began = time.time()
        made = verify(self.verifier, result)
        if result.verdict is None:
            self._ask(result, *made)
        if result.mode and result.verdict != REFUSED:
            result.sentences.append(in_mode(result))
        result.seconds = time.time() - began
        return result

    def _ask(self, result, calls, recorded):
        """Asks each solver, and takes the gravest of what they tell; what the others answered is added."""
        told = []
        for parts in self.commands():
            one = replace(result, obligations=[replace(obligation) for obligation in result.obligations])
            one.solver = os.path.basename(parts[0])
            one.solvers = [Asked(one.solver, shlex.join(parts), solver.version(parts[0]))]
            self._answer(one, calls, recorded, parts)
            told.append(one)
        grave = min(told, key=lambda one: self.gravity.index(one.verdict))
        others = [one for one in told if one is not grave]
        grave.sentences += [answered(*one.solvers) for one in others]
        denied = [one.solver for one in others if one.verdict in UNSAT]
        if grave.verdict == BROKEN and denied:
            grave.verdict = SOLVER_WRONG
            grave.sentences.insert(0, f'{" and ".join(denied)} answered unsat, but {grave.solver} has an example that '
                                   'breaks an obligation.')
        elif grave.verdict == UNKNOWN and denied:
            grave.sentences.append('Every solver that is asked must answer; with --any the answer of one is enough.')
        vars(result).update(vars(grave), solvers=[asked for one in told for asked in one.solvers])

    def _answer(self, result, calls, recorded, parts):
        """Puts a solver's verdict into a result."""
        names = core.declared(result.script)
        answer = self._question(result, parts, result.script, recorded, names)
        asked = result.solvers[0]
        if answer.reply.late or answer.number:
            asked.answer = 'unknown' if answer.number == 18 and not answer.reply.late else None
            self._unknown(result, answer.reply, answer.number, answer.value)
        elif answer.value == 0:
            asked.answer = 'unsat'
            (self._holds if result.looped is False else self._loop)(result, result.solver)
        else:
            asked.answer = 'sat'
            self._sat(result, calls, recorded, names, answer)
            if result.verdict == BROKEN and hints.undefined(result):
                self._without_x(result, calls, recorded, names, parts)

    def _question(self, result, parts, script, recorded, names):
        """Asks a script, and for the values of names besides; the reply goes through the verifier's reader."""
        own = f'(get-value ({" ".join(declared for declared, _ in names)}))\n' if names else ''
        reply = self.solvers.reply(parts, (script + own).encode(), self.seconds, lambda seconds: self.say(
            f'{result.solver} has been at work for {seconds:.0f} s', passing=True))
        result.solvers[0].seconds += reply.seconds
        first, listed, rest = solver.parts_of(reply.text)
        number, value, read = self.verifier.answer(first + (listed if any(recorded) else b''), recorded)
        values = solver.values_of(rest if any(recorded) else listed) if names else {}
        return Answer(reply, number, value, read, values)

    def _unknown(self, result, reply, number, place):
        """The verdict where the solver gave no answer that can be read."""
        result.verdict, name = UNKNOWN, result.solver
        if reply.late:
            result.sentences = [f'{name} gave no answer within {self.seconds:g} s, so nothing is known; --timeout '
                                'gives it more.']
        elif number == 18:
            result.sentences = [f'{name} answered unknown: it could not decide, so nothing is known.']
        elif reply.status < 0:
            result.sentences = [f'{name} was ended by signal {-reply.status} without an answer, so nothing is known.']
        elif not reply.text.strip():
            result.sentences = [f'{name} ended with status {reply.status} and wrote no answer, so nothing is known.']
        else:
            result.sentences = [f'The reply of {name} is no answer, so nothing is known (fault {number} at byte '
                                f'{place}: {FAULTS[number]}).']
        said = ' '.join((reply.text.decode(errors='replace').strip() or reply.errors).split())[:300]
        if said and number != 18:
            result.sentences.append(f'It wrote: {said}')

    def _holds(self, result, name):
        """The verdict of unsat without a current loop, by whether the edits stand when applied."""
        applied.judge(self.verifier, result)
        result.verdict = ONE_STEP if result.reasons else HOLDS
        edits = len({one.replacement for one in result.obligations})
        asked = f'Asked: {count(len(result.obligations), "obligation")}, of {count(edits, "edit")}.'
        kept = f'Every {design.choice(result)} keeps every obligation'
        if result.verdict == HOLDS:
            result.sentences = [f'{kept}: {name} answered unsat.',
                                'Applied, the edits make no loop, and each is read in time.', asked]
        else:
            result.sentences = [f'{kept}, for one step: {name} answered unsat.', *reasons(result), asked]
        result.sentences += _unasked(result)

    def _loop(self, result, name):
        """The verdict of unsat with a current loop, which says nothing of the edits."""
        result.verdict = LOOP
        result.sentences = [f'The cells have a current loop: {design.loop_text(result)}.',
                            f'{name} answered unsat, which with a loop is no proof: of some sources the cells may have '
                            'no assignment.',
                            'Cut the loop by a flip-flop of the base: where no loop is left, unsat answers the '
                            'question.']

    def _sat(self, result, calls, recorded, names, answer):
        """The verdict of sat: the evaluator must find every assertion true under the solver's bits."""
        name, values = result.solver, answer.values
        if values is None or any(declared not in values for declared, _ in names):
            result.verdict = UNKNOWN
            result.sentences = [f'{name} answered sat, but gave no value for some name: its example cannot be tested.']
            return
        wrong = self._example(result, calls, recorded, names, answer)
        if wrong:
            result.verdict = SOLVER_WRONG
            result.sentences = [f'{name} answered sat, but {wrong}.',
                                'Its example shows nothing; --solver asks another solver.']
            return
        false, asked = sum(not one.state for one in result.obligations), len(result.obligations)
        broken = 'the obligation' if asked == 1 else f'{false} of {asked} obligations'
        result.verdict = BROKEN
        result.sentences = [f'{"An" if result.looped else "A"} {design.choice(result)} breaks {broken}: '
                            f'{name} answered sat, with this example.',
                            'The proved evaluator finds every assertion of the script true there.']

    def _example(self, result, calls, recorded, names, answer):
        """Puts an example into a result, and says what is wrong with it, None where the evaluator confirms it."""
        bits = [answer.values[declared] for declared, _ in names]
        number, wrong, terms = self.verifier.evaluate(calls, bits, result.counts['terms'])
        result.trits = trits_of(answer.values)
        if number:
            return 'a value of its example is wider than its name'
        for one in result.obligations:
            one.state = bool(terms[one.term])
            one.shown = None if one.state else shown(result, one, new_trits(calls, terms, one.term))
        if wrong:
            return f'under its bits {count(wrong, "assertion")} of the script {"is" if wrong == 1 else "are"} false'
        return None if agrees(result.trits, recorded, answer.read) else 'it gave one net two values'

    def _without_x(self, result, calls, recorded, names, parts):
        """Asks the same where no source is X: either there is a plainer example, or, without a loop, only an X breaks
        the edits."""
        given = hints.sources(result)
        xs = [name for name, _ in names if re.fullmatch('[np][0-9]+x', name)
              and (name[0] == 'p' or int(name[1:-1]) in given)]
        defined = ''.join(f'(assert (= {name} #b0))\n' for name in xs)
        script = result.script.replace('(check-sat)\n', defined + '(check-sat)\n')
        answer = self._question(result, parts, script, recorded, names)
        if answer.reply.late or answer.number:
            return
        result.two_valued = None if result.looped else answer.value == 0
        if answer.value:
            plainer = replace(result, obligations=[replace(one) for one in result.obligations])
            self._sat(plainer, calls, recorded, names, answer)
            if plainer.verdict == BROKEN:
                result.trits, result.obligations = plainer.trits, plainer.obligations
                result.sentences = plainer.sentences


def trits_of(values):
    """The trits of the slots whose n or p names have values."""
    trits = {}
    for name, bit in values.items():
        found = re.fullmatch('([np])([0-9]+)x', name)
        if found and name[:-1] + 'y' in values:
            below = values[name[:-1] + 'y']
            age = 'now' if found.group(1) == 'n' else 'was'
            trit = trits.setdefault(int(found.group(2)), Trit())
            setattr(trit, age, 'X' if bit else TRITS[below & 1])
            setattr(trit, 'hidden_' + age, bool(below) if bit else None)
    return trits


def agrees(trits, recorded, read):
    """Whether the verifier's reader has read the same trits in the list that the script itself asks for."""
    ages = {1: 'now', 2: 'was'}
    return all(getattr(trits.get(slot), ages[mark], None) == TRITS[read[slot]]
               for slot, mark in enumerate(recorded) if mark)


def new_trits(calls, terms, obligation):
    """A function from a width to the trits, highest first, that an obligation's new side shows; None if not known."""
    found = core.refined(calls, obligation)
    if found is None:
        return None
    x, y = terms[found[0]], terms[found[1]]
    return lambda width: ''.join('X' if x >> at & 1 else str(y >> at & 1) for at in reversed(range(width)))


def shown(result, obligation, new):
    """What the nets of an obligation show in the example."""
    if obligation.replacement is None:
        return None
    edit = result.replacements[obligation.replacement]
    if edit.kind == 'cell':
        now = [result.trits.get(slot, Trit()).now or '-' for slot in range(edit.slot, edit.slot + edit.cell.width)]
        told = f', the new one {new(edit.cell.width)}' if new else ''
        return f'the old cell gives {"".join(reversed(now))}{told}'
    past = 'new state' not in obligation.edit and design.reads_past(result, edit.new.slot)
    values = [_value(result, edit.old, False), _value(result, edit.new, past)]
    return ', '.join(value for value in values if value) or None


def _value(result, net, past):
    """What a slot's net is or was in the example; None for a constant."""
    if net.slot is None:
        return None
    trit = result.trits.get(net.slot, Trit())
    return f'{net.text(result.names)} {"was" if past else "is"} {(trit.was if past else trit.now) or "-"}'
