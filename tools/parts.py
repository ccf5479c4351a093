"""A log that isn't accepted, taken apart: its executions, the writes of each in the order in which they take effect, and what of
it can be left out. Of the log no more is kept than what the fault can need."""

from array import array
from bisect import bisect_left
from typing import NamedTuple

from answers import other_log
from command import MISUSE, Ended
from followed import Followed
from logtext import HEADER, START

END = "end\n"
BEFORE, AT_START = (-1, 0), (0, 0)  # where no write takes effect
OF_HEADER = ("bad header", "unknown version")
OF_START = ("start out of range", "start word not rising", "start stands for no state")


class Write(NamedTuple):
    """A write that takes effect up to the fault: where it does, with its own line behind that, its word and its value."""

    at: tuple
    word: int
    value: int


class Unit:
    """What goes or stays as a whole: an execution, with the first argument of its call as its key; or a line that is in none."""

    __slots__ = ("key", "places", "writes")

    def __init__(self, key):
        self.key, self.places, self.writes = key, array("I"), []


class Less(NamedTuple):
    """A part of a log: the places of its units in the order of their last lines, and the words that it begins with.

    Of a word at the start there is its value, and where the write took effect that is folded into it, or AT_START.
    """

    units: tuple
    start: dict


class Parts:
    """The header, the specification, the starting lines and the units of a log, up to the fault and what is still open there.

    Notes go. If a specification has the fault, all is kept up to there, and nothing of what comes after. Where writes take effect
    is what `vyrd follow` says.
    """

    def __init__(self, log):
        self.log, self.line, self.fault = log, log.marked_line, log.answer.split(": ", 1)[1]
        self.verdict = log.answer.split(" ", 1)[0]
        self.header, self.front, self.starts, self.ending = "", [], [], END
        self.texts, self.lines, self.owners = [], array("Q"), array("I")
        self.units, self.marked, self.marked_place = [], None, None
        self.staying = set()  # the units that never go: the one that is at fault, and calls that are open where the input ends
        self._open = {}
        self._compare(log.subject)
        self._read()
        self._compare(self.marked is not None)
        self._take_effects()
        self._sort()

    def _read(self):
        """Takes the lines apart, up to the last one that the fault can need."""
        may_start = False
        for line, text, length, is_ended in self.log.lines():
            if line == 1:
                self.header, may_start = text, self.log.version in ("2", "3")
                if self.fault in OF_HEADER:
                    break
                continue
            if line <= self.log.front and line <= self.line:
                self.front.append(text)
                continue
            if not self._is_fault_behind_front():
                break
            if self.log.is_note(line, text, length):
                continue
            may_start = may_start and START.fullmatch(text) is not None
            if may_start:
                self.starts.append(text)
            elif self.fault in OF_START or not self._take(line, text, is_ended):
                break
        self._end()

    @property
    def is_violation(self):
        """Whether the fault is one of a call."""
        return self.verdict == "violation"

    def _is_fault_behind_front(self):
        """Whether the fault isn't one of a specification."""
        return self.log.version != "3" or self.log.specification is not None

    def _take(self, line, text, is_ended):
        """Takes a line, and says whether one after it can be needed."""
        if text == "end" and is_ended and self.fault != "text after end":
            return False
        if self.fault == "text after end" and line >= self.line - 1:
            self.ending += (text + "\n" * is_ended) if line == self.line else ""
            return line < self.line
        if line <= self.line:
            self._keep(line, text)
            return line < self.line or (self.verdict == "violation" and self._open != {})
        entry = self.log.entry(line, text)
        if entry and entry.caller in self._open:
            if entry.kind == "call":
                return False
            self._keep(line, text)
        return entry is not None and self._open != {}

    def _keep(self, line, text):
        """Puts a line to its unit. One whose text is at fault is in none."""
        is_text = line == self.line and self.fault in ("bad entry", "no line feed")
        entry = None if is_text else self.log.entry(line, text)
        number = self._open.get(entry.caller) if entry else None
        if number is None:
            number = len(self.units)
            self.units.append(Unit(entry.numbers[0] if entry and entry.kind == "call" and entry.numbers else None))
            if entry and entry.kind == "call":
                self._open[entry.caller] = number
        if line == self.line:
            self.marked, self.marked_place = number, len(self.texts)
        self.units[number].places.append(len(self.texts))
        self.texts.append(text)
        self.lines.append(line)
        self.owners.append(number)
        if entry and entry.kind == "return":
            self._open.pop(entry.caller, None)

    def _compare(self, can_be):
        """Ends the script if a violation can't be about such a log."""
        if self.verdict == "violation" and not can_be:
            raise other_log()

    def _take_effects(self):
        """Puts the writes that take effect up to the fault to their units, each once."""
        last = None
        for write in Followed(self.log).writes() if self.log.subject and self.texts else ():
            if write.at > self.line:
                break
            place = bisect_left(self.lines, write.line)
            if (write.line, write.at) != last and place < len(self.lines) and self.lines[place] == write.line:
                self.units[self.owners[place]].writes.append(Write((write.at, write.line), write.word, write.value))
            last = write.line, write.at

    def _end(self):
        """What stands behind the entries, if that is the fault."""
        if self.fault == "too many lines":
            raise Ended("a log with fewer lines can't have too many", MISUSE)
        if self.fault in ("no end", "no line feed") or self.fault in OF_HEADER or not self._is_fault_behind_front():
            self.ending = ""

    def _sort(self):
        """Numbers the units by their last lines."""
        order = sorted(range(len(self.units)), key=lambda number: self.units[number].places[-1])
        self.units = [self.units[number] for number in order]
        if self.fault in ("no end", "no line feed"):
            self.staying = {order.index(number) for number in self._open.values()}
        if self.marked is not None:
            self.marked = order.index(self.marked)
            self.staying.add(self.marked)

    def whole(self):
        """All that was kept."""
        start = {}
        for text in self.starts:
            word, value = map(int, START.fullmatch(text).groups())
            start[word] = (value, AT_START)
        return Less(tuple(range(len(self.units))), start)

    def places(self, less):
        """The places of the lines that are left, in their order."""
        return sorted(place for number in less.units for place in self.units[number].places)

    def own_lines(self, less):
        """The lines that the call at fault has in the log that is left."""
        own, first = set(self.units[self.marked].places), 2 + len(self.front) + len(present(less.start))
        return {first + number for number, place in enumerate(self.places(less)) if place in own}

    def own_lines_at_first(self):
        """Those that it has in the log that was given."""
        return {self.lines[place] for place in self.units[self.marked].places}

    def entries(self, less):
        """The entries that are left, with the lines that they have in the whole log."""
        for place in self.places(less):
            entry = self.log.entry(self.lines[place], self.texts[place])
            if entry:
                yield entry

    def callers(self, less):
        """New numbers for the callers that are left, in the order in which they come."""
        numbers = {}
        for entry in self.entries(less):
            numbers.setdefault(entry.written.partition(" ")[0], str(len(numbers)))
        return numbers

    def text(self, less, callers=None):
        """The log that is left, its callers numbered anew if that is asked for, and the answer that it has to have."""
        if not self.log.subject:
            return self._answered([self.header, *self.front], self.line if self.front else 1)
        starts = [f"start {word} {value}" for word, (value, _) in sorted(less.start.items()) if value]
        return self._lines(starts, less, callers)

    def text_of_starts(self, starts):
        """The log of these starting lines alone."""
        return "\n".join([self.header, *self.front, *starts, END])

    def _lines(self, starts, less, callers):
        places = self.places(less)
        lines = [self._header(bool(starts), callers), *self.front, *starts]
        if callers is None:
            lines += [self.texts[place] for place in places]
        else:
            for place in places:
                caller, space, rest = self.texts[place].partition(" ")
                lines.append(callers.get(caller, caller) + space + rest)
        if self.marked is None:
            return self._answered(lines, len(lines) + 1 + (self.fault == "text after end"))
        return self._answered(lines, 2 + len(self.front) + len(starts) + places.index(self.marked_place))

    def _header(self, has_starts, callers):
        """The header: of version 2 if it has to be, and with as many callers as there are."""
        if self.log.version == "3":
            front, _, count = self.header.rpartition(" ")
            return f"{front} {count if callers is None else max(1, len(callers))}"
        found = HEADER.fullmatch(self.header)
        version = "2" if has_starts else found[1]
        count = found[4] if callers is None else str(max(1, len(callers)))
        return f"vyrd {version} {found[2]} {found[3]} {count}"

    def _answered(self, lines, line):
        text = "\n".join(lines) + ("" if self.fault == "no line feed" else "\n") + self.ending
        return text, f"{self.verdict} at line {line}: {self.fault}"


def present(start):
    """The words that aren't 0."""
    return [word for word, (value, _) in sorted(start.items()) if value]


def without(less, gone):
    """What is left without these units."""
    return Less(tuple(number for number in less.units if number not in gone), less.start)


def folded(parts, less, gone):
    """The same, if a word begins with what the last one of these units wrote to it before any that stays does."""
    left = without(less, gone)
    written = {write.word for number in gone for write in parts.units[number].writes}
    first = {}
    for number in left.units:
        for write in parts.units[number].writes:
            if write.word in written:
                first[write.word] = min(write.at, first.get(write.word, write.at))
    start = dict(left.start)
    for number in gone:
        for write in parts.units[number].writes:
            is_first = write.word not in first or write.at < first[write.word]
            if is_first and write.at > start.get(write.word, (0, BEFORE))[1]:
                start[write.word] = (write.value, write.at)
    return Less(left.units, start)
