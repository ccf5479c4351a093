"""What the words show at all keys: kept while words are written, and worked out from all words."""

import random
import sys
import unittest
from pathlib import Path

REFERENCE = Path(__file__).resolve().parent.parent
sys.path[:0] = [str(REFERENCE), str(REFERENCE.parent.parent / "tools")]

from amounts import shown_by
from logtext import words_in
from words import DAMAGE, PART_WORDS, SHOWN, Words


class Amounts(unittest.TestCase):
    def compare(self, subject, words, writes):
        """What is kept at all keys is what the words give at each."""
        kept = shown_by(words, PART_WORDS[subject])
        keys = range(4) if subject in ("cache", "buffers") else {*range(9), 255, DAMAGE, 1 << 32}
        for word, value in writes:
            before = {key: kept.amounts.get(key, 0) for key in keys}
            changed = kept.write(word, value)
            for key in keys:
                self.assertEqual(kept.amounts.get(key, 0), words.amount(key), (subject, key))
                self.assertEqual(changed.get(key, before[key]), words.amount(key), (subject, key))

    def test_all_amounts_are_those_of_each_key(self):
        """Words that chance writes."""
        chance = random.Random(1)
        for subject, greatest in (("multiset", 3), ("cache", 3), ("tree", 3), ("buffers", 8)):
            values = [*range(greatest), 255, 1 << 32, 1 << 33]
            for _ in range(12):
                words = Words(subject, 2, {chance.randrange(words_in(subject, 2)): chance.choice(values) for _ in range(4)})
                self.compare(subject, words, [(chance.randrange(words_in(subject, 2)), chance.choice(values)) for _ in range(60)])

    def shown_at(self, subject, size, key, writes):
        """What words show at a key after each of these writes."""
        words, amounts = Words(subject, size, {}), []
        for word, value in writes:
            words[word] = value
            amounts.append(words.amount(key))
        return amounts

    def test_a_slot_shows_its_value_while_it_is_valid(self):
        writes = (0, 2), (1, 5), (3, 5), (2, 2), (0, 1), (3, 6), (8, 2), (9, 5)  # there is no slot 4
        self.assertEqual(self.shown_at("multiset", 1, 5, writes), [0, 1, 1, 2, 1, 0, 0, 0])

    def test_a_tree_shows_what_its_chain_has(self):
        writes = (25, 1), (28, 7), (32, 9), (3, 2), (3, 1), (15, 2), (3, 0)  # node 2 has 7 with the value 9
        self.assertEqual(self.shown_at("tree", 3, 7, writes), [0, 0, 0, SHOWN + 9, 0, SHOWN + 9, 0])

    def test_a_chain_that_comes_back_or_leads_out_is_damage(self):
        self.assertEqual(self.shown_at("tree", 2, DAMAGE, ((3, 1), (15, 1), (15, 0), (3, 2), (3, 0))), [0, 1, 0, 1, 0])


if __name__ == "__main__":
    unittest.main()
