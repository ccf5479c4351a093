"""Long lines of proofs are broken: where, and what stays."""

import shutil
import unittest
from pathlib import Path

import layout
from support import ScriptTest

LONG = "a" * 40
SHORT = "a" * 30


class Lines(unittest.TestCase):
    def test_a_line_is_broken_before_an_arrow_that_stands_in_no_bracket(self):
        line = f"pub law : (x : {SHORT}) → (y : {SHORT} → B) → C x"
        self.assertEqual(layout.broken(line), [f"pub law : (x : {SHORT}) → (y : {SHORT} → B)", "    → C x"])

    def test_a_chain_is_broken_before_its_last_step_that_fits(self):
        line = f"    ap f {LONG} ∙ sym {LONG} ∙ other {LONG}"
        self.assertEqual(layout.broken(line), [f"    ap f {LONG} ∙ sym {LONG}", f"        ∙ other {LONG}"])

    def test_what_a_bracket_binds_stays_together(self):
        line = f"pub law : (first second third : {LONG}) (fourth fifth sixth seventh eighth : {LONG}) → A"
        first, second = layout.broken(line)
        self.assertEqual(first, f"pub law : (first second third : {LONG})")
        self.assertTrue(second.startswith("    (fourth fifth"))

    def test_an_import_becomes_two(self):
        names = [f"name_{n:02}" for n in range(14)]
        first, second = layout.broken("use Rattle.made_up.specs.Names.{" + ", ".join(names) + "}")
        self.assertLessEqual(len(first), 100)
        for line in (first, second):
            self.assertTrue(line.startswith("use Rattle.made_up.specs.Names.{") and line.endswith("}"))
        self.assertEqual([line[32:-1].split(", ") for line in (first, second)], [names[:7], names[7:]])

    def test_a_comment_is_filled_up_from_its_long_line_to_its_end(self):
        text = "-- short\n-- " + "word " * 25 + "end\n-- and more\nf x = x\n-- other"
        lines = ["-- short", "-- " + " ".join(["word"] * 19), "-- " + "word " * 6 + "end and more", "f x = x", "-- other"]
        self.assertEqual(layout.broken_once(text), ("\n".join(lines), []))

    def test_a_comment_of_one_long_word_stays(self):
        line = "-- " + "a" * 120
        self.assertEqual(layout.broken_once(line), (line, [line]))

    def test_a_name_can_not_be_broken(self):
        self.assertIsNone(layout.broken("    " + "a" * 120))

    def test_nothing_is_broken_behind_a_comment_at_the_end(self):
        columns = [place.column for place in layout.places_in("f x -- and why")]
        self.assertEqual(columns, [1])


class Meaning(unittest.TestCase):
    def test_space_comments_and_cut_imports_are_no_change(self):
        one = "use A.{b, c, d}\nf x = g x (y, z)  -- why\n"
        other = "use A.{b, c}\nuse A.{d}\nf x =\n    g x (\n      y,\n      z,\n    )\n"
        self.assertEqual(layout.meaning(one), layout.meaning(other))

    def test_another_name_another_order_and_another_import_are(self):
        text = "use A.{b, c}\nf x = g x (y, z)\n"
        for other in (text.replace("y, z", "z, y"), text.replace("g x", "h x"), text.replace("b, c", "b"), text.replace("A.", "B.")):
            self.assertNotEqual(layout.meaning(text), layout.meaning(other))


@unittest.skipUnless(shutil.which("rattle"), "the kit's rattle isn't there")
class Files(ScriptTest):
    def wrapped(self, text):
        """What is left of a file with this text, and how the script ended."""
        name = self.write("Made.antt", text.encode())
        said = self.run_script("wrap", name)
        return Path(name).read_text(encoding="utf-8"), said

    def test_a_file_is_laid_out_and_its_words_stay(self):
        text = f"law : (x : A) → P x → Q (other_{LONG} x) → R (another_{LONG} x) → S x\nlaw x p q r = combine p (lemma x q) r\n"
        new, said = self.wrapped(text)
        self.assertEqual((said.error, said.status), ("", 0))
        self.assertEqual(layout.meaning(new), layout.meaning(text))
        self.assertEqual(new.splitlines()[1], f"    → R (another_{LONG} x) → S x")
        self.assertTrue(all(len(line) <= 100 for line in new.splitlines()))

    def test_a_line_that_stays_long_is_named(self):
        text = "-- " + "a" * 120 + "\nx : A\nx = y\n"
        new, said = self.wrapped(text)
        self.assertEqual((new, said.status), (text, 0))
        self.assertIn("123 columns", said.error)

    def test_a_file_that_is_none_of_a_proof_is_left_as_it_is(self):
        text = "law : (((( " + "a " * 60 + "\n"
        new, said = self.wrapped(text)
        self.assertEqual((new, said.status), (text, 1))
        self.assertIn("is left as it is", said.error)


class Words(ScriptTest):
    def test_no_file_a_missing_one_and_an_option(self):
        self.assert_refused(self.run_script("wrap"), "wrap: it takes the names of .antt files")
        self.assert_refused(self.run_script("wrap", "--width"), "wrap: it takes the names of .antt files, or --help")
        self.assert_refused(self.run_script("wrap", "none.antt"), "wrap: none.antt can't be read: No such file or directory")

    def test_help(self):
        said = self.run_script("wrap", "--help")
        self.assertEqual((said.error, said.status), ("", 0))
        self.assertIn("more than 100 columns", said.out)


if __name__ == "__main__":
    unittest.main()
