"""What the expressions, the steps and the parts of a specification are worth. The rules are those of docs."""

import sys
import unittest
from pathlib import Path

REFERENCE = Path(__file__).resolve().parent.parent
sys.path[:0] = [str(REFERENCE), str(REFERENCE.parent.parent / "tools")]

from expressions import NONE, Reading, Scope
from specification import Specification
from steps import State, View, answer_of, step_of, why_no_start

METHOD = ["method m", "  allow 1"]


def read(lines):
    """The specification of these lines."""
    said = Specification()
    for line, text in enumerate(lines, 2):
        said.take(line, text, len(text))
    return said


class Values(unittest.TestCase):
    def setUp(self):
        self.said = read(["register r 7", "list q", "  holds 4", "  holds 5", "list e", "hidden 3 9", "method m x", "  allow 1"])
        self.state = State(self.said, {2: 20, 6: 60})

    def worth(self, text):
        scope = Scope(("r", "x"), ("q", "e"), True)
        return Reading(text).expression(scope).value(self.state, {"r": 7, "x": 3})

    def test_operations(self):
        for text, value in {
            "(x + r)": 10, "(x - r)": 0, "(r - x)": 4, "(x * r)": 21, "(r / x)": 2, "(r / 0)": 0, "(r % x)": 1, "(r % 0)": 0,
            "(none + 1)": NONE, "(none * 2)": NONE, "(x == 3)": 1, "(x != 3)": 0, "(x < 3)": 0, "(x <= 3)": 1, "(x > 2)": 1,
            "(x >= 4)": 0, "(2 and 4)": 1, "(0 and 4)": 0, "(0 or 4)": 1, "(0 or 0)": 0, "(not 5)": 0, "(not 0)": 1,
            "(if 2 then x else r)": 3, "(if 0 then x else r)": 7,
        }.items():
            self.assertEqual(self.worth(text), value, text)

    def test_the_state(self):
        for text, value in {
            "[2]": 20, "[3]": 0, "{3}": 9, "{2}": 0, "count": 2, "(least 0)": 2, "(least 3)": 6, "(least 7)": NONE, "(greatest 1)": NONE,
            "(greatest 5)": 2, "(greatest none)": 6, "(first q)": 4, "(last q)": 5, "(length q)": 2, "(first e)": NONE, "(last e)": NONE,
            "(length e)": 0,
        }.items():
            self.assertEqual(self.worth(text), value, text)

    def test_the_least_key_follows_what_is_set(self):
        self.assertEqual(self.worth("(least 0)"), 2)
        self.state.shown[2] = 0
        self.state.shown[4] = 1
        self.assertEqual([self.worth("(least 0)"), self.worth("(greatest 5)"), self.worth("count")], [4, 4, 2])
        self.state.shown.clear()
        self.assertEqual([self.worth("(least 0)"), self.worth("count")], [NONE, 0])


class Steps(unittest.TestCase):
    def test_the_first_case_that_allows_counts_and_changes_see_the_state_before(self):
        said = read(["register a 1", "register b 2", "method swap", "  allow (reply == 9)", "  allow (reply > 0)", "    set a b", "    set b a"])
        state, method = State(said), said.by_name["swap"]
        self.assertIsNone(step_of(said, method, state, (), 0))
        self.assertEqual(step_of(said, method, state, (), 9).effects, [])
        for effect in step_of(said, method, state, (), 1).effects:
            state.do(effect)
        self.assertEqual(state.registers, {"a": 2, "b": 1})

    def test_lists_and_amounts(self):
        lines = ["    append q 1", "    prepend q 2", "    drop last q", "    drop last e", "    set {1} 3", "    clear", "    set [1] 4"]
        said = read(["list q", "  holds 8", "list e", "method m", "  allow 1", *lines])
        state = State(said, {5: 5})
        for effect in step_of(said, said.by_name["m"], state, (), 0).effects:
            state.do(effect)
        self.assertEqual(({name: list(items) for name, items in state.lists.items()}), {"q": [2, 8], "e": []})
        self.assertEqual((state.shown.by_key, state.hidden.by_key), ({1: 4}, {1: 3}))

    def test_an_answer_that_is_not_there_is_none(self):
        said = read(["method get k", "  let twice (k * 2)", "  answer [twice]", "method put", "  allow 1"])
        state = State(said, {4: 7})
        self.assertEqual(answer_of(said, said.by_name["get"], state, (2,)), 7)
        self.assertEqual(answer_of(said, said.by_name["put"], state, ()), NONE)


class Views(unittest.TestCase):
    def test_parts_give_amounts_that_add_up_and_parts_of_zeros_give_nothing(self):
        said = read(["let base 100", "part 2", "  shows w1 1", "  shows (base + part) w0", *METHOD])
        view = View(said, {0: 1, 1: 5, 5: 5})
        self.assertEqual(view.amounts(), {5: 2, 100: 1})
        self.assertEqual((view.given_to(2, 5), view.given_to(1, 5), view.words_of(2)), (1, 0, [0, 5]))

    def test_words_that_stand_for_no_state(self):
        said = read(["part 2", "  shows 0 w0", *METHOD])
        self.assertIsNone(why_no_start(said, 4, {0: NONE}))
        self.assertEqual(why_no_start(said, 3, {}), "the header has 3 words, and parts of 2 words don't fill them")
        self.assertIn("amounts are below 2^64", why_no_start(said, 4, {0: NONE + 1}))
        self.assertIsNone(why_no_start(read(METHOD), 3, {}))


if __name__ == "__main__":
    unittest.main()
