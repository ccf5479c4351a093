"""Which words a log can begin with, if it is to begin with fewer."""

import unittest

from starts import leaves_alone, parts_of, words_of

SIZE = 4
ROOT, IN_USE = 12 * SIZE, 12 * SIZE + 1


def node(number, level=0, bound=0, right=0, entries=()):
    """The words of a tree's node."""
    first = 12 * number
    words = {first: level, first + 1: len(entries), first + 2: bound, first + 3: right}
    for place, (key, value) in enumerate(entries):
        words |= {first + 4 + place: key, first + 8 + place: value}
    return words


def start(*words):
    """Words at the start, without those that are 0."""
    return {word: (value, (0, 0)) for each in words for word, value in each.items() if value}


LEFT, RIGHT = [(4, 9)], [(10, 1), (12, 2)]


class Leaves(unittest.TestCase):
    def test_inner_nodes_behind_the_leaves_go(self):
        inner = node(2, 1, entries=[(0, 0), (10, 1)])
        tree = start(node(0, 0, 10, 1, LEFT), node(1, entries=RIGHT), inner, {ROOT: 2, IN_USE: 2})
        wanted = start(node(0, 0, 10, 1, LEFT), node(1, entries=RIGHT), {IN_USE: 1})
        self.assertEqual(leaves_alone(SIZE, tree, {1}), wanted)

    def test_leaves_that_nobody_writes_go_from_the_end(self):
        tree = start(node(0, 0, 10, 1, LEFT), node(1, entries=RIGHT), {IN_USE: 1})
        self.assertEqual(leaves_alone(SIZE, tree, {0}), start(node(0, entries=LEFT)))

    def test_an_inner_node_before_a_leaf_becomes_an_empty_leaf_behind_it(self):
        inner = node(1, 1, entries=[(0, 0), (10, 2)])
        tree = start(node(0, 0, 10, 2, LEFT), inner, node(2, entries=RIGHT), {ROOT: 1, IN_USE: 2})
        wanted = start(node(0, 0, 10, 2, LEFT), node(2, 0, 13, 1, RIGHT), {IN_USE: 2})
        self.assertEqual(leaves_alone(SIZE, tree, {2}), wanted)


class Groups(unittest.TestCase):
    def test_words_that_go_together(self):
        slots = start({2: 2, 3: 7, 5: 1})
        self.assertEqual(parts_of("multiset", 1, slots), [[2, 3], [5]])
        self.assertEqual(words_of("multiset", 1, slots), [2, 3, 5])

    def test_of_a_leaf_its_entries_go_together_and_its_values_alone(self):
        tree = start(node(0, 0, 10, 1, LEFT), node(1, entries=RIGHT), {IN_USE: 1})
        self.assertEqual(parts_of("tree", SIZE, tree), [[1, 4, 8], [13, 16, 17, 20, 21]])
        self.assertEqual(words_of("tree", SIZE, tree), [8, 20, 21])


if __name__ == "__main__":
    unittest.main()
