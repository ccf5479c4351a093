"""Walks: in which order the effects and the commits of a log are known."""

import sys
import unittest
from pathlib import Path

REFERENCE = Path(__file__).resolve().parent.parent
sys.path[:0] = [str(REFERENCE), str(REFERENCE.parent.parent / "tools")]

from logtext import entry_of
from walk import Walk


class Walks(unittest.TestCase):
    def walk(self, *lines):
        """The effects, each with its line and its words, and the commits that are known after each line."""
        walk, known = Walk(), []
        for line, text in enumerate(lines, 2):
            walk.take(entry_of(line, text))
            while effect := walk.next_effect():
                known.append((line, "effect", effect.at.line, [write.numbers[0] for write in effect.writes]))
            while execution := walk.next_commit():
                known.append((line, "commit", execution.commit_line))
        return known

    def test_a_write_outside_a_block_takes_effect_on_its_line(self):
        self.assertEqual(self.walk("0 call insert 5", "0 write 1 5"), [(3, "effect", 3, [1])])

    def test_the_writes_of_a_block_take_effect_at_its_end(self):
        lines = ("0 call insert 5", "0 open", "0 write 1 5", "0 write 0 2", "0 close commit", "0 return 1")
        self.assertEqual(self.walk(*lines), [(6, "effect", 6, [1, 0]), (7, "commit", 6)])

    def test_with_a_commit_inside_they_take_effect_there_and_later_ones_wait(self):
        lines = ("0 call insert 5", "0 open", "0 commit", "1 call insert 6", "1 write 3 6", "0 write 1 5", "0 close")
        self.assertEqual(self.walk(*lines), [(8, "effect", 4, [1]), (8, "effect", 6, [3])])

    def test_commits_are_known_in_their_order(self):
        lines = ("0 call insert 5", "0 commit", "1 call insert 6", "1 commit", "1 return 1", "0 return 1")
        self.assertEqual(self.walk(*lines), [(7, "commit", 3), (7, "commit", 5)])


if __name__ == "__main__":
    unittest.main()
