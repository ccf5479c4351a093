"""What each line of a log changes: in the words, in what they show, and in the specification's state, as `vyrd follow` says it.

All that tools/page shows of states are these rows. What reads them plays them on and back, and knows no structure. Nothing is
worked out here but the places of the elements of lists, and at which keys something is cleared.
"""

from typing import NamedTuple

from followed import Agreed, Followed, Write
from logtext import line_named

# What changes: words by their numbers, shown amounts by their keys, what the specification has by the same keys, its hidden
# amounts, its registers by their places in the specification, and the elements of lists by LISTS_APART times a place, which
# rises from the front to the end, with the list's own place in the specification.
TRACKS = WORDS, SHOWN, HAS, HIDDEN, REGISTERS, LISTS = ("words", "shown", "has", "hidden", "registers", "lists")
LISTS_APART = 16

OF_KIND = {"key": HAS, "hidden key": HIDDEN, "register": REGISTERS}


class Change(NamedTuple):
    """What something is from a line on: None is an element of a list that isn't there. A word has the line that wrote it.

    What stands at the start has the line 0.
    """

    track: str
    line: int
    at: int
    value: int
    source: int = 0


class Changes:
    """The changes of a log, those of each track in the order of their lines. `until` is the last line that is followed."""

    def __init__(self, log):
        self.log, self.until, self.followed = log, 0, None
        if log.subject:
            self.followed = Followed(log)
            self.until = last_followed(self.followed.verdict)
        said = log.specification
        self.lists = [Places(place, items) for place, items in enumerate(said.lists.values())] if said else []
        self.has = set()  # the keys at which the specification has something
        self.last = None  # the lines of the last write: one that changes more than one key is told for each

    def __iter__(self):
        if not self.until:
            return
        yield from self._at_start()
        for told in self.followed:
            if isinstance(told, Agreed):
                yield Change(SHOWN, 0, *told)
                yield self._has(0, *told)
            elif isinstance(told, Write):
                yield from self._write(told)
            else:
                yield from self._step(told.line, told.doing)

    def _at_start(self):
        """What the text says of the start: words, and what the specification of the user's own begins with."""
        said = self.log.specification
        for word, value in self.log.starting().items():
            yield Change(WORDS, 0, word, value)
        for key, amount in dict(said.hidden).items() if said else ():
            yield Change(HIDDEN, 0, key, amount)
        for place, value in enumerate(said.registers.values() if said else ()):
            yield Change(REGISTERS, 0, place, value)
        for places in self.lists:
            yield from (Change(LISTS, 0, at, value) for at, value in places.at_start())

    def _write(self, told):
        """A write that takes effect, once, and what it changes at a key."""
        if (told.line, told.at) != self.last:
            self.last = told.line, told.at
            yield Change(WORDS, told.at, told.word, told.value, told.line)
        if told.key is not None:
            yield Change(SHOWN, told.at, told.key, told.amount)

    def _step(self, line, doing):
        """What a step does."""
        if doing.kind == "list":
            yield from (Change(LISTS, line, at, value) for at, value in self.lists[doing.number].changed(doing))
        elif doing.kind is None:
            yield from [self._has(line, key, 0) for key in sorted(self.has)]
        elif doing.kind == "key":
            yield self._has(line, doing.number, doing.value)
        else:
            yield Change(OF_KIND[doing.kind], line, doing.number, doing.value)

    def _has(self, line, key, amount):
        """What the specification has at a key from a line on."""
        (self.has.add if amount else self.has.discard)(key)
        return Change(HAS, line, key, amount)


def last_followed(verdict):
    """The last line that is followed: what is malformed has no meaning from its fault on."""
    return line_named(verdict) - 1 if verdict.startswith("malformed") else float("inf")


class Places:
    """Where the elements of a list stand: so many, from the place of the first one on."""

    def __init__(self, number, items):
        self.number, self.items, self.first, self.length = number, items, 0, len(items)

    def at_start(self):
        """The elements with which it begins, by their places."""
        return [(self._place(place), value) for place, value in enumerate(self.items)]

    def changed(self, doing):
        """The places at which a step changes it, with the elements that stand there then."""
        last = self.first + self.length - 1
        if doing.verb == "append":
            self.length += 1
            return [(self._place(last + 1), doing.value)]
        if doing.verb == "prepend":
            self.first, self.length = self.first - 1, self.length + 1
            return [(self._place(self.first), doing.value)]
        every = range(self.first, last + 1)
        gone = {"drop first": every[:1], "drop last": every[-1:], "clear": every}[doing.verb]
        self.first += len(gone) if doing.verb == "drop first" else 0
        self.length -= len(gone)
        return [(self._place(place), None) for place in gone]

    def _place(self, place):
        return LISTS_APART * place + self.number
