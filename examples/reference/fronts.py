"""The longest beginning of a log that keeps the rules, judged line by line: those of its text, and those of its shape.

The lines of `vyrd explain` and of `vyrd follow` speak of it, and of nothing behind it. Which rule is broken there isn't said.
"""

import re
from itertools import takewhile
from typing import NamedTuple

from findings import is_sound
from logtext import MOST_WORD, OBSERVERS, START, Entry, words_in

MOST_LINES = 16_777_216  # of a log that is explained or followed
MOST_VALUE = (1 << 63) - 1  # of a word
NOT_SPELLED = re.compile("(?:.* )?0[0-9].*")  # a text with a zero in front of a number
END = "end"


class StartWord(NamedTuple):
    """A word at the start, which isn't 0."""

    word: int
    value: int


def read(log):
    """The words at the start, the entries, and END, up to the first line that breaks a rule of text."""
    last, may_start = -1, log.version != "1"
    for line, text in said(log):
        start = may_start and not NOT_SPELLED.fullmatch(text) and START.fullmatch(text)
        if start:
            found = StartWord(*map(int, start.groups()))
            if not (last < found.word < words_in(log.subject, log.size) and 1 <= found.value <= MOST_VALUE):
                return
            last = found.word
        else:
            may_start, found = False, END if text == END else entry_on(log, line, text)
        if not found:
            return
        yield found
        if found == END:
            return


def said(log):
    """The lines that say something behind the header and the specification, up to one that no line feed ends."""
    for line, text, length, is_ended in log.lines():
        if not is_ended or line > MOST_LINES:
            return
        if line > log.front and not log.is_note(line, text, length):
            yield line, text


def entry_on(log, line, text):
    """The entry that a line spells, or None."""
    entry = log.entry(line, text)
    if not entry or NOT_SPELLED.fullmatch(text) or entry.caller > MOST_WORD:
        return None
    if entry.kind == "call" and not is_sound(log, entry):
        return None
    is_reply = entry.kind != "return" or entry.numbers[0] < (1 << 64) - bool(log.specification)
    return entry if is_reply else None


def starting(log):
    """The words at the start with their values, up to the first that breaks a rule."""
    return {found.word: found.value for found in takewhile(lambda found: isinstance(found, StartWord), read(log))}


def has_begun(log):
    """Whether an entry stands behind the words at the start, or the line `end`."""
    return any(not isinstance(found, StartWord) for found in read(log))


def front(log):
    """The entries up to the first one that breaks a rule."""
    shape = Shape(log)
    for entry in read(log):
        if isinstance(entry, Entry):
            if not shape.take(entry):
                return
            yield entry


class Open:
    """An execution that is open: its method, whether it has committed, the words that its open block has written, and the number
    of the commit inside that block. Each of these two is None if there is none.
    """

    __slots__ = ("method", "has_committed", "block", "inner")

    def __init__(self, method):
        self.method, self.has_committed, self.block, self.inner = method, False, None, None


class Shape:
    """What the callers are in the middle of."""

    def __init__(self, log):
        self.log, self.words, self.count = log, words_in(log.subject, log.size), 0
        self.open = {}  # the executions, by caller
        self.holders = {}  # by word, the callers whose open blocks wrote it
        self.written = {}  # by word, the callers whose writes took effect, with the number of the last entry at which one did

    def take(self, entry):
        """Goes on over an entry, if it keeps the rules, and says whether it does."""
        self.count += 1
        execution = self.open.get(entry.caller)
        if entry.caller >= self.log.callers or bool(execution) == (entry.kind == "call"):
            return False
        if entry.kind == "call":
            self.open[entry.caller] = Open(entry.method)
            return True
        if entry.kind == "write":
            return self._write(entry, execution)
        if entry.kind == "return":
            return self._return(entry, execution)
        return self._mark(entry, execution)

    def _return(self, entry, execution):
        del self.open[entry.caller]
        return execution.block is None and (execution.has_committed or not self._commits(execution.method)[1])

    def _commits(self, method):
        """Whether executions of a method may commit, and whether they have to."""
        if not self.log.specification:
            return (method not in OBSERVERS,) * 2
        said = self.log.specification.by_name[method]
        return bool(said.cases), bool(said.cases) and not said.answer

    def _mark(self, entry, execution):
        """Goes on over a commit, or over the begin or the end of a block."""
        kind, has_block = entry.kind, execution.block is not None
        if entry.commits and (execution.has_committed or not self._commits(execution.method)[0]):
            return False
        if (kind == "open" and has_block) or (kind.startswith("close") and not has_block):
            return False
        if kind == "commit" and has_block:
            execution.inner = self.count
        if kind == "open":
            execution.block, execution.inner = set(), None
        elif kind != "commit":
            self._end(entry.caller, execution)
        execution.has_committed = execution.has_committed or entry.commits
        return not (kind == "commit" and has_block and self.log.version == "1")

    def _end(self, caller, execution):
        """Ends a block: its words are no longer held, and were written where their writes took effect."""
        for word in execution.block:
            self.holders[word].discard(caller)
            self._effect(word, caller, execution.inner or self.count)
        execution.block = None

    def _effect(self, word, caller, number):
        last = self.written.setdefault(word, {})
        last[caller] = max(number, last.get(caller, 0))

    def _write(self, entry, execution):
        word, value = entry.numbers
        if word >= self.words or value > MOST_VALUE or self._is_raced(entry.caller, word, execution):
            return False
        if execution.block is None:
            self._effect(word, entry.caller, self.count)
        else:
            execution.block.add(word)
            self.holders.setdefault(word, set()).add(entry.caller)
        return True

    def _is_raced(self, caller, word, execution):
        """Whether another caller's open block has written a word, or another caller behind the commit inside the own block."""
        if any(other != caller for other in self.holders.get(word, ())):
            return True
        if execution.block is None or execution.inner is None:
            return False
        return any(other != caller and number > execution.inner for other, number in self.written.get(word, {}).items())
