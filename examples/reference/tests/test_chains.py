"""The chain of a tree that is kept while words are written, beside the one that a walk along it gives."""

import random
import sys
import unittest
from pathlib import Path

REFERENCE = Path(__file__).resolve().parent.parent
sys.path[:0] = [str(REFERENCE), str(REFERENCE.parent.parent / "tools")]

from chains import Chain
from words import Words


class Chains(unittest.TestCase):
    def assert_kept(self, chance, size):
        """Some writes to right words, which now and then lead back, or out of the nodes."""
        words = Words("tree", size, {12 * node + 3: chance.randrange(size + 1) for node in range(size) if chance.random() < 0.5})
        chain, taken_out = Chain(words), {}
        for step in range(40):
            word = 12 * chance.randrange(size) + 3
            before, (old, _) = words[word], words.chain()
            words[word] = chance.randrange(size + 2)
            chain.changed(word, before, step)
            new, is_broken = words.chain()
            taken_out.update({node: step for node in old if node not in new})
            taken_out = {node: by for node, by in taken_out.items() if node not in new}
            self.assertEqual((chain.nodes, chain.is_broken, chain.taken_out), (set(new), is_broken, taken_out))

    def test_it_is_the_one_that_a_walk_gives(self):
        chance = random.Random(7)
        for size in (1, 2, 3, 5, 8):
            for _ in range(100):
                self.assert_kept(chance, size)

    def test_other_words_and_nodes_outside_change_nothing(self):
        words = Words("tree", 4, {3: 1, 15: 2})
        chain = Chain(words)
        for word, value in ((16, 9), (13, 1), (12 * 4 + 1, 3), (39, 2)):
            words[word] = value
            chain.changed(word, 0, word)
        self.assertEqual((chain.nodes, chain.taken_out), ({0, 1, 2}, {}))

    def test_nodes_are_taken_out_together_and_one_comes_back(self):
        words = Words("tree", 5, {3: 1, 15: 2, 27: 3})
        chain = Chain(words)
        words[3] = 3
        chain.changed(3, 1, "first")
        self.assertEqual((chain.nodes, chain.taken_out), ({0, 3}, {1: "first", 2: "first"}))
        words[3] = 2
        chain.changed(3, 3, "second")
        self.assertEqual((chain.nodes, chain.taken_out), ({0, 2, 3}, {1: "first"}))


if __name__ == "__main__":
    unittest.main()
