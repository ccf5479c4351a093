"""The words of a log as they stand at the start, for the reference: what all of them show, and which parts of them show a key."""

import steps
from amounts import shown_by
from logtext import words_in
from words import DAMAGE, PART_WORDS, Words


def words_at_start(log, values):
    """The words of a log, which have these values at the start."""
    if log.specification:
        return OwnWords(log.specification, log.size, values)
    return BuiltInWords(log.subject, log.size, values)


def amounts_of(words):
    """All that words show, by key."""
    return shown_by(words, words.of_part).amounts if words.of_part else {}


def given_at(key, given):
    """The parts that give something to a key, with how much, by the pairs of a key and an amount that each of them gives."""
    sums = ((part, sum(amount for other, amount in pairs if other == key)) for part, pairs in given)
    return [(part, amount) for part, amount in sums if amount]


class BuiltInWords(Words):
    """The words of a log of versions 1 and 2."""

    @property
    def of_part(self):
        """How many words a slot, a chunk, a node or a buffer has."""
        return PART_WORDS[self.subject]

    def parts_with(self, key):
        """The parts that give something to a key, with how much. What is wrong with a tree's chain is given by its last node."""
        if self.subject != "tree":
            parts = range(words_in(self.subject, self.size) // self.of_part)
            return given_at(key, ((part, self.given_by(part)) for part in parts))
        nodes, is_broken = self.chain()
        given = [(node, self.given_by(node)) for node in nodes]
        given[-1][1].extend([(DAMAGE, 1)] * is_broken)
        return given_at(key, given)


class OwnWords(steps.View):
    """The words of a log of version 3. Those behind the last whole part show nothing."""

    def __init__(self, specification, size, values):
        super().__init__(specification, values)
        self.count = size // self.of_part if self.of_part else 0

    def given_by(self, part):
        """What a part gives, as pairs of a key and an amount."""
        return super().given_by(part) if part < self.count else []

    def parts_with(self, key):
        """The parts that give something to a key, with how much."""
        return given_at(key, ((part, self.given_by(part)) for part in self.parts()))

    def amount(self, key):
        """What they show of a key."""
        return self.amounts().get(key, 0)
