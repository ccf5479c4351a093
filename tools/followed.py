"""The lines of `vyrd follow` about a log, as numbers: what changes along it. docs/FOLLOW.md says what they mean."""

import re
from typing import NamedTuple

from answers import Told, unknown_line
from expressions import NONE

# What a step does, as `explain` says it too: to an amount, a register or a list, or to all shown amounts.
DOING = "(?:(key|hidden key|register|list) ([0-9]+) )?(amount|value|append|prepend|drop first|drop last|clear)(?: ([0-9]+|none))?"

AGREED = re.compile("agreed at the start: key ([0-9]+) amount ([0-9]+)")
WRITE = re.compile(
    "(?:change|write) at line ([0-9]+): word ([0-9]+) from ([0-9]+) to ([0-9]+), in effect at line ([0-9]+)"
    "(?:, key ([0-9]+) amount ([0-9]+) to ([0-9]+))?"
)
STEP = re.compile(f"step at line ([0-9]+): {DOING}")


class Agreed(NamedTuple):
    """What the words show of a key at the start."""

    key: int
    amount: int


class Write(NamedTuple):
    """A write on a line, which takes effect at another or the same one: what its word was before and is then.

    If it changed what the words show at a key, it has that with its amounts before and then. If it changed more keys, it is told
    for each.
    """

    line: int
    word: int
    before: int
    value: int
    at: int
    key: int = None
    was: int = None
    amount: int = None


class Doing(NamedTuple):
    """What a step does: to a key, a hidden key, a register or a list with a number, or without a kind to all shown amounts."""

    kind: str
    number: int
    verb: str
    value: int

    @property
    def cell(self):
        """What of the state it changes."""
        return self.kind or "key", self.number


class Step(NamedTuple):
    """A thing that the step of the commit on a line does."""

    line: int
    doing: Doing


def numbers_of(found):
    """The numbers that a line has."""
    return [int(number) for number in found.groups() if number]


def doing_of(kind, number, verb, value):
    """What a step does, of which these are the words."""
    return Doing(kind, int(number) if number else None, verb, value_in(value) if value else None)


def value_in(word):
    """The number that a word is, which may be `none`."""
    return NONE if word == "none" else int(word)


def agreed_in(line):
    return Agreed(*numbers_of(found)) if (found := AGREED.fullmatch(line)) else None


def write_in(line):
    """The write that a line of `follow` or of `explain` tells, or None."""
    return Write(*numbers_of(found)) if (found := WRITE.fullmatch(line)) else None


def step_in(line):
    return Step(int(found[1]), doing_of(*found.groups()[1:])) if (found := STEP.fullmatch(line)) else None


KINDS = {"a": agreed_in, "c": write_in, "w": write_in, "s": step_in}  # by how a line begins


class Followed:
    """What `vyrd follow` says of a log: the verdict, and in their order the things that change."""

    def __init__(self, log):
        self.told = Told("follow", log)
        self.verdict = self.told.verdict

    def __iter__(self):
        for line in self.told:
            found = KINDS.get(line[:1], write_in)(line)
            if not found:
                raise unknown_line("follow", line)
            yield found

    def writes(self):
        """The writes alone."""
        return (found for line in self.told if line[:1] in "cw" and (found := write_in(line)))
