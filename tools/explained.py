"""The lines of `vyrd explain` about a log, as numbers. docs/EXPLAIN.md says what they mean.

Of the kinds that may be many the last ones are kept, with how many there were.
"""

import re
from collections import deque
from typing import NamedTuple

from answers import Told, unknown_line
from followed import DOING, Step, doing_of, value_in, write_in

MOST = 8  # that are said of one kind: the last ones
NUMBER, VALUE = "([0-9]+)", "([0-9]+|none)"


class Last:
    """The last of what there is of one kind, and how much there was."""

    def __init__(self, most=MOST):
        self.items, self.count = deque(maxlen=most), 0

    def add(self, item):
        self.items.append(item)
        self.count += 1


class Held(NamedTuple):
    """What a state has: an amount of a key or of a hidden key, the value of a register, or of a list its size and its ends."""

    kind: str
    number: int
    value: object


class Ends(NamedTuple):
    """How many elements a list has, and those at its ends."""

    size: int
    first: int
    last: int


class Passed(NamedTuple):
    """A write that came between a commit inside a block and a write behind that, with its word and where it took effect."""

    line: int
    word: int
    at: int


class OpenCall(NamedTuple):
    """The line of a call that hasn't returned, and of its block that hasn't ended, or None."""

    line: int
    block: int = None


class Explained:
    """What `vyrd explain` says of a log."""

    def __init__(self, log):
        told = Told("explain", log)
        self.verdict = told.verdict
        self.call, self.reply = None, None  # their lines
        self.key, self.agreed, self.before, self.shown, self.has = None, None, 0, 0, 0  # `agreed` is a line, or 0 at the start
        self.parts, self.changes = Last(), Last()
        self.state, self.allowed, self.steps = [], [], []
        self.answers, self.first_answers = Last(), {}  # those that differ by the line of each, as many as are said
        self.held, self.passed, self.open = [], Last(), []
        for line in told:
            self._take(line)

    def _take(self, line):
        if line.startswith("change ") and (write := write_in(line)):
            self.changes.add(write)
            return
        for form, take in FORMS:
            if found := form.fullmatch(line):
                take(self, *found.groups())
                return
        raise unknown_line("explain", line)

    def _call(self, line):
        self.call = int(line)

    def _reply(self, line):
        self.reply = int(line)

    def _agreed(self, line, key, amount):
        self.agreed, self.key, self.before = int(line or 0), int(key), int(amount)

    def _words(self, amount):
        self.shown = int(amount)

    def _part(self, part, amount):
        self.parts.add((int(part), int(amount)))

    def _has(self, amount):
        self.has = int(amount)

    def _state(self, kind, number, value):
        self.state.append(Held(kind, int(number), value_in(value)))

    def _list(self, number, size, first, last):
        self.state.append(Held("list", int(number), Ends(int(size), value_in(first), value_in(last))))

    def _allowed(self, reply):
        self.allowed.append(int(reply))

    def _step(self, line, *doing):
        self.steps.append(Step(int(line), doing_of(*doing)))

    def _answer(self, line, answer):
        self.answers.add((int(line), value_in(answer)))
        if len(self.first_answers) < MOST:
            self.first_answers.setdefault(value_in(answer), int(line))

    def _held(self, line):
        self.held.append(int(line))

    def _passed(self, *numbers):
        self.passed.add(Passed(*map(int, numbers)))

    def _open_call(self, line):
        self.open.append(OpenCall(int(line)))

    def _open_block(self, line):
        self.open[-1] = self.open[-1]._replace(block=int(line))


FORMS = [
    (re.compile(form), take)
    for form, take in (
        (f"call at line {NUMBER}", Explained._call),
        (f"reply at line {NUMBER}", Explained._reply),
        (f"agreed at (?:line {NUMBER}|the start): key {NUMBER} amount {NUMBER}", Explained._agreed),
        (f"words after line [0-9]+: key [0-9]+ amount {NUMBER}", Explained._words),
        (f"part {NUMBER} after line [0-9]+: key [0-9]+ amount {NUMBER}", Explained._part),
        (f"state after line [0-9]+: key [0-9]+ amount {NUMBER}", Explained._has),
        (f"state before line [0-9]+: (key|hidden key|register) {NUMBER} (?:amount|value) {VALUE}", Explained._state),
        (f"state before line [0-9]+: list {NUMBER} size {NUMBER} first {VALUE} last {VALUE}", Explained._list),
        (f"allowed reply {NUMBER}", Explained._allowed),
        (f"last step at line {NUMBER}: {DOING}", Explained._step),
        (f"answer from line {NUMBER}: {VALUE}", Explained._answer),
        (f"held by line {NUMBER}", Explained._held),
        (f"passed at line {NUMBER}: word {NUMBER}, in effect at line {NUMBER}", Explained._passed),
        (f"open call at line {NUMBER}", Explained._open_call),
        (f"open block at line {NUMBER}", Explained._open_block),
    )
]
