"""What goes through many elements and counts no step: found in made-up sources, and in those of the judge."""

import importlib.machinery
import importlib.util
import tempfile
import unittest
from pathlib import Path

from support import TOOLS, ScriptTest

loader = importlib.machinery.SourceFileLoader("uncounted", str(TOOLS / "uncounted"))
uncounted = importlib.util.module_from_spec(importlib.util.spec_from_loader("uncounted", loader))
loader.exec_module(uncounted)

SOURCE = """
impl<C: Compare> Words<C> {
    /// Looks at all, for each of the words.
    pub fn look<L: Ledger>(&self, steps: &mut Steps<L>) -> bool
        ensures { result ≡ true }
    {
        BODY
    }
}
"""


DECLARED = """
pub trait Marked {
    /// Whether it is marked.
    fn is_marked(self) -> bool
        ensures { result ≡ is_marked self };
}

impl<V: Marked> Places<V> {
    fn first(&self) -> Option<u64> {
        for place in &self.places {
            go(place);
        }
        None
    }
}
"""


def found_in(body):
    """What is without a count in a function `look` with this body."""
    return found_in_file(SOURCE.replace("BODY", body))


def found_in_file(source):
    """What is without a count in a file."""
    with tempfile.TemporaryDirectory() as top:
        file = Path(top) / "crates" / "made_up" / "src" / "words.rt"
        file.parent.mkdir(parents=True)
        file.write_text(source, encoding="utf-8")
        return [(row.function, row.what) for row in uncounted.rows(Path(top), ("made_up",))]


LOOK = "made_up/words: Words::look"


class Loops(unittest.TestCase):
    def test_a_loop_that_counts_is_left_out(self):
        self.assertEqual(found_in("for word in &self.words {\n            steps.tick();\n        }"), [])

    def test_a_loop_whose_calls_count_is_left_out(self):
        self.assertEqual(found_in("while let Some(x) = next {\n            next = self.judge(x, steps);\n        }"), [])

    def test_a_loop_without_a_count_is_found(self):
        self.assertEqual(found_in("for word in &self.words {\n            go(word);\n        }"), [(LOOK, "for")])

    def test_a_count_behind_the_loop_is_none_of_the_loop(self):
        body = "for word in &self.words {\n            go(word);\n        }\n        steps.tick();"
        self.assertEqual(found_in(body), [(LOOK, "for")])

    def test_a_count_in_a_comment_is_none(self):
        self.assertEqual(found_in("loop {\n            go(); // steps.tick()\n        }"), [(LOOK, "loop")])


class Declarations(unittest.TestCase):
    def test_a_function_without_a_body_has_no_loop_of_the_next(self):
        self.assertEqual(found_in_file(DECLARED), [("made_up/words: Places::first", "for")])


class Calls(unittest.TestCase):
    def test_a_call_that_moves_elements_is_found(self):
        self.assertEqual(found_in("self.words.insert(place, 1)"), [(LOOK, "insert")])

    def test_a_call_that_the_function_charges_is_left_out(self):
        self.assertEqual(found_in("steps.add(self.words.len() - place);\n        self.words.insert(place, 1)"), [])

    def test_a_call_that_is_given_the_count_is_left_out(self):
        self.assertEqual(found_in("self.writes.clear(steps)"), [])

    def test_a_search_by_a_closure_is_found(self):
        self.assertEqual(found_in("self.words.iter().any(|word| *word == 0)"), [(LOOK, "any")])

    def test_the_position_of_one_entry_is_no_search(self):
        self.assertEqual(found_in("self.first.position() == 0"), [])


class Reasons(unittest.TestCase):
    def test_what_has_no_reason_is_said(self):
        lines, wrong = uncounted.told([uncounted.Row("a", "for")], {})
        self.assertEqual((lines, wrong), ([], ["a has a for without a count, and no reason is given"]))

    def test_a_reason_for_nothing_is_said(self):
        lines, wrong = uncounted.told([], {"a": "ends"})
        self.assertEqual((lines, wrong), (["it ends:"], ["a has a reason, and nothing in it is without a count"]))

    def test_what_has_a_reason_stands_under_it(self):
        lines, wrong = uncounted.told([uncounted.Row("a", "for"), uncounted.Row("b", "fill")], {"b": "ends", "a": "ends"})
        self.assertEqual((lines, wrong), (["it ends:", "    a, for", "    b, fill"], []))


class Script(ScriptTest):
    def test_all_that_the_judge_does_without_a_count_has_a_reason(self):
        said = self.run_script("uncounted")
        self.assertEqual((said.error, said.status), ("", 0))
        self.assertIn("    vyrd_view/tree: walk, for\n", said.out)

    def test_a_word_is_refused(self):
        said = self.run_script("uncounted", "vyrd_judge")
        self.assertEqual((said.out, said.status), ("", 64))
        self.assertIn("it takes no words but --help", said.error)
