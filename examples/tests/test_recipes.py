"""Tests of the words of the programs in Python that examples/own has. What their logs are worth is for examples/own/check."""

import unittest

from scripts import EXAMPLES, ScriptTest

RECIPES = sorted(path for path in (EXAMPLES / "own/recipes").glob("*.py") if path.stem != "recipes")
NUMBER_MAP = EXAMPLES / "own/python/number_map.py"


class Recipes(ScriptTest):
    def run_program(self, path, *words):
        return self.run_script("/usr/bin/env", "python3", "-B", str(path), *words)

    def test_help_says_what_a_program_takes(self):
        self.assertTrue(RECIPES)
        for path in [*RECIPES, NUMBER_MAP]:
            ran = self.run_program(path, "--help")
            self.assertEqual((ran.returncode, ran.stderr), (0, b""), path)
            self.assertIn(f"\n    {path.name} correct ", ran.stdout.decode())
            self.assertIn(f"\n    {path.name} broken ", ran.stdout.decode())

    def test_other_words_are_a_misuse(self):
        for path in [*RECIPES, NUMBER_MAP]:
            for words in ([], ["--nosuch"], ["correct", "x"], ["correct", "1", "2"], ["broken", "1"]):
                self.assert_ended(self.run_program(path, *words), 64, b"", [f"{path.name}: it takes `correct`"])

    def test_a_log_is_printed_whole(self):
        for words in (["correct"], ["broken"]):
            ran = self.run_program(NUMBER_MAP, *words)
            self.assertEqual((ran.returncode, ran.stderr, ran.stdout.splitlines()[-1]), (0, b"", b"end"))
        ran = self.run_program(RECIPES[0], "correct", "3")
        self.assertEqual((ran.returncode, ran.stderr, ran.stdout.splitlines()[-1]), (0, b"", b"end"))


if __name__ == "__main__":
    unittest.main()
