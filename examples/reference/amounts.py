"""What the words show at all keys, kept while words are written: a write costs no look at all words."""

from chains import Chain
from words import DAMAGE


def shown_by(words, of_part):
    """What keeps the amounts at all keys of these words, parts of which have so many. Words are then written through it alone."""
    return (ShownByChain if getattr(words, "subject", None) == "tree" else Shown)(words, of_part)


class Shown:
    """The amounts at all keys: the sums of what parts of the words give. `amounts` has those that aren't 0."""

    def __init__(self, words, of_part):
        self.words, self.of_part, self.amounts, self.given = words, of_part, {}, {}
        self._change(sorted({word // of_part for word in words.values}))

    def write(self, word, value):
        """Writes a word, and gives the keys whose amounts that changes, with their new amounts."""
        self.words[word] = value
        return self._change([word // self.of_part])

    def given_by(self, part):
        """What a part gives, as pairs of a key and an amount."""
        return self.words.given_by(part)

    def _change(self, parts):
        """Works out anew what these parts give."""
        more = {}
        for part in parts:
            given, self.given[part] = self.given.get(part, ()), self.given_by(part)
            for key, amount in self.given[part]:
                more[key] = more.get(key, 0) + amount
            for key, amount in given:
                more[key] = more.get(key, 0) - amount
        changed = {key: self.amounts.get(key, 0) + amount for key, amount in more.items() if amount}
        self.amounts.update(changed)
        for key in changed:
            if not self.amounts[key]:
                del self.amounts[key]
        return changed


class ShownByChain(Shown):
    """The amounts at all keys of a tree, to which the nodes of the chain give, and the chain itself if it is damaged."""

    CHAIN = -1  # the part that the chain itself is

    def __init__(self, words, of_part):
        self.chain = Chain(words)
        super().__init__(words, of_part)
        self._change([self.CHAIN])

    def write(self, word, value):
        before, self.words[word] = self.words[word], value
        added, gone = self.chain.changed(word, before, None)
        return self._change({word // self.of_part, self.CHAIN, *added, *gone})

    def given_by(self, part):
        if part == self.CHAIN:
            return [(DAMAGE, 1)] if self.chain.is_broken else []
        return self.words.given_by(part) if part in self.chain.nodes else []
