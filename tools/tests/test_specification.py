"""How a specification is read, line by line. The rules are those of docs."""

import sys
import unittest

from support import QUEUE, TOOLS

sys.path.insert(0, str(TOOLS))

from expressions import Refused
from specification import Specification, sizes_in

METHOD = ["method m", "  allow 1"]


def read(lines):
    """The specification of these lines."""
    said = Specification()
    for line, text in enumerate(lines, 2):
        said.take(line, text, len(text))
    return said


def refusal(*lines):
    """The rule that the last of these lines breaks, with its column from 1 on; those before it break none."""
    said = read(lines[:-1])
    try:
        said.take(len(lines) + 1, lines[-1], len(lines[-1]))
    except Refused as refused:
        return refused.rule, refused.place + 1
    return None


class Lines(unittest.TestCase):
    def assert_rules(self, rule, *cases):
        """Each case is some lines and the column at which the last one breaks the rule."""
        for *lines, column in cases:
            self.assertEqual(refusal(*lines), (rule, column), lines[-1])

    def test_a_queue_is_read(self):
        said = read(QUEUE.splitlines()[1:])
        self.assertEqual((said.is_whole, said.part), (True, 2))
        self.assertEqual((list(said.lists), list(said.by_name)), (["waiting"], ["enqueue", "dequeue"]))
        changes = [(change.line, change.kind) for change in said.by_name["dequeue"].cases[0].changes]
        self.assertEqual(changes, [(14, "drop first"), (15, "shown")])

    def test_headers(self):
        self.assertEqual(sizes_in("vyrd 3 own 0 1"), (0, 1))
        self.assertEqual(sizes_in("vyrd 3 own 65536 256"), (65536, 256))
        for header in ("65537 1", "1 257", "1 0", "01 1", "1 01", "1", "1 1 ", " 1 1"):
            self.assertIsNone(sizes_in(f"vyrd 3 own {header}"), header)

    def test_lines_that_are_none(self):
        self.assert_rules(
            "bad specification line",
            ("zzz", 1),
            ("method m", "zzz", 1),
            ("let x", 6),
            ("let x 01", 7),
            ("let x 18446744073709551615", 7),
            ("let Room 1", 5),
            ("let count 1", 5),
            ("let w15 1", 5),
            ("let a" + "a" * 32 + " 1", 5),
            ("list q ", 7),
            ("part 0", 6),
            ("part 17", 6),
            ("hidden 1", 9),
            ("method m x  y", 12),
            ("method m", "  allow", 1),
            ("method m", "  allow ", 9),
            ("method m", "  allow (1)", 11),
            ("method m", "  allow (1+ 1)", 11),
            ("method m", "  allow (1 + 1", 15),
            ("method m", "  allow (1 + 1))", 16),
            ("method m", "  allow [1)", 11),
            ("method m", "  allow 1", "    set 1 1", 9),
            ("method m", "  allow 1", "    drop q", 5),
            ("method m", "  allow 1", "    clear ", 11),
            ("log\r", 1),
        )

    def test_lines_that_stand_at_the_wrong_place(self):
        self.assert_rules(
            "line out of place",
            ("register r 0", "let x 1", 5),
            ("part 1", "let x 1", 5),
            ("hidden 0 0", "let x 1", 5),
            (*METHOD, "register r 0", 10),
            (*METHOD, "list q", 6),
            (*METHOD, "part 1", 6),
            ("part 1", "part 1", 6),
            ("register r 0", "  holds 1", 9),
            ("list q", "register r 0", "  holds 1", 9),
            ("part 1", "list q", "  shows 0 0", 9),
            (*METHOD, "  let x 1", 7),
            (*METHOD, "  answer 1", 10),
            ("method m", "    clear", 5),
            ("  allow 1", 1),
            ("    clear", 1),
        )

    def test_a_remark_parts_nothing(self):
        self.assertIsNone(refusal("list q", "", "# more", "  holds 1"))
        self.assertIsNone(refusal("part 1", "#", "  shows 0 w0"))

    def test_names(self):
        self.assert_rules(
            "name taken",
            ("let x 1", "register x 1", 10),
            ("list q", "method m x q", 12),
            ("method m x x", 12),
            (*METHOD, "method m", 8),
            ("method m x", "  let x 1", 7),
        )
        self.assertIsNone(refusal("let x 1", "method x"))  # methods have names of their own
        self.assert_rules(
            "unknown name",
            ("method m", "  allow x", 9),
            ("method m", "  answer reply", 10),
            ("method m", "  let a a", 9),
            ("list q", "method m", "  allow q", 9),
            ("list q", "method m", "  allow 1", "    set q 1", 9),
            ("register r 0", "method m", "  allow 1", "    append r 1", 12),
            ("part 1", "  shows w1 1", 9),
            ("register r 0", "part 1", "  shows r 1", 9),
            ("method m", "  allow (first q)", 16),
        )

    def test_limits(self):
        self.assert_rules(
            "too many",
            (*(f"let x{n} 0" for n in range(65)), 5),
            (*(f"register x{n} 0" for n in range(17)), 10),
            (*(f"list x{n}" for n in range(17)), 6),
            (*(line for n in range(64) for line in (f"method m{n}", "  allow 1")), "method last", 8),
            ("method m a b c d", 15),
            ("method m a", *(f"  let x{n} 0" for n in range(16)), 7),
            ("method m", *["  allow 1"] * 9, 9),
            ("method m", "  allow 1", *["    clear"] * 9, 5),
            ("part 1", *["  shows 0 0"] * 5, 9),
            (*["#"] * 1000, "let x 1", 1),
        )
        self.assertIsNone(refusal(*["#"] * 998, *METHOD, "log"))

    def test_depth_length_and_state(self):
        deep = "[" * 31 + "1" + "]" * 31
        self.assertIsNone(refusal("method m", f"  allow {deep}"))
        self.assert_rules("too deep", ("method m", f"  allow [{deep}]", 9 + 32))
        self.assertIsNone(refusal("#" * 200))
        self.assert_rules("line too long", ("#" * 201, 201))
        self.assert_rules(
            "state is read here",
            ("part 1", "  shows [0] 1", 9),
            ("part 1", "  shows (w0 + count) 1", 15),
            ("part 1", "  shows 0 (least 1)", 12),
        )

    def test_the_end(self):
        self.assert_rules("no method", ("log", 1))
        self.assert_rules("method without a case", ("method m", "log", 1), ("method m", "method n", 8))


if __name__ == "__main__":
    unittest.main()
