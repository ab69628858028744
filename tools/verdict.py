"""What `vm` finds out about a design: a Result, which the terminal's text, `--json` and the report are made from."""
from dataclasses import dataclass, field

REFUSED, NOTHING_ASKED, HOLDS, ONE_STEP, LOOP, BROKEN, UNKNOWN, SOLVER_WRONG = (
    'REFUSED', 'NOTHING ASKED', 'HOLDS', 'HOLDS FOR ONE STEP', 'LOOP', 'BROKEN', 'UNKNOWN', 'SOLVER WRONG')
# No verdict: the design could not be read, or the verifier or a solver could not be asked.
NOT_CHECKED = 'NOT CHECKED'
STATUS = {HOLDS: 0, REFUSED: 1, NOT_CHECKED: 2, NOTHING_ASKED: 3, BROKEN: 4, UNKNOWN: 5, SOLVER_WRONG: 6, LOOP: 7,
          ONE_STEP: 8}
# From the best to the worst.
STATUS_ORDER = [0, 3, 7, 8, 5, 2, 1, 4, 6]
# The modes by their numbers: how a flip-flop's net that is replaced by a flip-flop's is judged.
PORTED, INDUCTIVE = 0, 1
MODES = ('ported', 'inductive')


@dataclass
class Net:
    """A net as a cell or a replacement names it: a slot, or a constant '0', '1' or 'X'; a control may be inverted."""
    slot: int = None
    constant: str = None
    inverted: bool = False

    def text(self, names=None):
        """The net in notation; `names` has the names of slots."""
        named = self.constant if self.slot is None else (names or {}).get(self.slot) or f's{self.slot}'
        return '!' * self.inverted + named


@dataclass
class Pin:
    """The nets that a cell reads in one place of its body, lowest bit first: 'data', 'clock' and so on."""
    role: str
    nets: list


@dataclass
class Cell:
    """A cell of the base, an added one, or a replacement's new cell (slot and width are then the replaced cell's)."""
    operation: str        # 'Not'
    slot: int             # its first slot
    width: int            # its output width; it takes max(1, width) slots
    text: str             # its record in notation, with the names of slots: 'Not #1 in0'
    numbers: dict         # the numbers of its body: {'n': 1}, {'n': 4, 'm': 2, 'stride': 1}
    pins: list            # its Pins, in the order of its body
    place: int            # the word of the list that is its head
    added: bool = False   # an added cell, not one of the base
    patterns: list = None  # of a Match: for each pattern its alternates, each a text of 0, 1 and X, lowest bit first


@dataclass
class Replacement:
    """An edit: a cell's replacement (slot and cell) or a net's (old and new)."""
    kind: str             # 'cell' or 'net'
    text: str             # in notation, with the names of slots: '#1 Buf #1 in0' or 'not1 in0'
    place: int            # its first word in the list
    slot: int = None
    cell: Cell = None
    old: Net = None
    new: Net = None


@dataclass
class Obligation:
    """One argument of the query's `and`."""
    edit: str             # the edit that it comes from, in words
    replacement: int      # its index in Result.replacements, or None
    term: int             # its term's number: k14 is 14
    state: bool = None    # in the solver's example; None where there is none
    shown: str = None     # what its nets show there: 'not1 is 1, in0 is 0'


@dataclass
class Trit:
    """What a slot shows in the solver's example: '0', '1', 'X', or None where the script does not name the net."""
    now: str = None
    was: str = None
    hidden_now: bool = None   # under an X now: whether the bit beneath it is 1
    hidden_was: bool = None


@dataclass
class Reason:
    """Why edits that hold for one step may not stand when applied."""
    condition: str        # 'circle', 'a' to 'd' as in docs/UNSAT.md, 'loop', or 'length' where it is not known
    edits: list           # the indexes in Result.replacements of the edits that it is about
    place: int            # the word of the list where the first of them begins, or the cell that no edit replaces
    sentence: str         # with the edits' texts
    instead: str          # what to do instead


@dataclass
class Asked:
    """A solver that was asked, and what it answered."""
    name: str
    command: str
    version: str = None   # the first line that it tells of itself, where it is known how to ask it
    answer: str = None    # 'unsat', 'sat' or 'unknown'; None where there is no answer that can be read
    seconds: float = 0.0  # how long it took, for all that it was asked


@dataclass
class Result:
    source: str                                   # the file, or '-'
    words: list = field(default_factory=list)
    text: str = None                              # the design as it was written, where it was text
    places: list = field(default_factory=list)    # of a text: line and column of each word, from 1
    names: dict = field(default_factory=dict)     # slot -> name, for slots that have one; others are s0, s1, ...
    base: int = 0                                 # slots of the base
    added: int = 0                                # added slots
    cells: list = field(default_factory=list)     # Cells in slot order; empty where the list is refused
    replacements: list = field(default_factory=list)
    owners: dict = field(default_factory=dict)    # slot -> Cell; design.owners fills it
    verdict: str = None
    loop: list = None                             # the first slots of a current loop, [] if none; None if refused
    applied: bool = None                          # after unsat: whether the applied edits end, and make no current loop
    timely: bool = None                           # and whether each is read in time: conditions (a) to (d)
    reasons: list = field(default_factory=list)   # Reasons, of HOLDS FOR ONE STEP
    sentences: list = field(default_factory=list)  # what the verdict says, whole sentences
    two_valued: bool = None                       # of BROKEN by an X, no loop: whether the edits hold with no source X
    hints: list = field(default_factory=list)     # (sentence, the course's page on it or None)
    fault: int = None                             # of REFUSED: the fault's number
    place: int = None                             # and its place in the list
    line: int = None                              # and where its word stands in the text
    column: int = None
    obligations: list = field(default_factory=list)
    trits: dict = field(default_factory=dict)     # slot -> Trit, of BROKEN
    script: str = None
    counts: dict = field(default_factory=dict)    # 'slots', 'terms', 'temporaries', 'words', 'edits', 'obligations'
    solver: str = None                            # the name of the solver whose answer the verdict rests on
    solvers: list = field(default_factory=list)   # every solver that was asked: Asked
    seconds: float = None                         # how long it took
    mode: int = PORTED                            # the mode in which it is verified

    @property
    def status(self):
        """The exit status of the verdict."""
        return STATUS[self.verdict]

    @property
    def looped(self):
        """Whether the cells have a current loop; None where that is not known."""
        return None if self.loop is None else bool(self.loop)

    @property
    def in_mode(self):
        """The mode in words, empty for the ported one and where no mode was come to."""
        judged = self.verdict not in (REFUSED, NOT_CHECKED)
        return f'in mode {self.mode} ({MODES[self.mode]})' if self.mode and judged else ''

    @property
    def title(self):
        """The source as it stands beside the verdict, with the mode: verdicts of two modes never look alike."""
        return ', '.join(filter(None, (self.source, self.in_mode)))

    def slot_text(self, slot):
        return self.names.get(slot) or f's{slot}'

    def cell_text(self, slot):
        """The name of the cell whose first slot it is, or that slot."""
        return self.slot_text(slot).partition('[')[0]
