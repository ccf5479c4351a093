"""Tests of rows_of, with a checker that does what its input says: it ends with the first line's status, and prints the others."""

import unittest

from scripts import ScriptTest

ACCEPTED = "accepted: 0 entries, 0 commits, 0 observers"
VIOLATION = "violation at line 3: reply 1 not allowed"
MALFORMED = "malformed at line 1: no end"


class RowsOf(ScriptTest):
    def setUp(self):
        super().setUp()
        self.checker = self.program("checker", '[ "$*" = check ] || exit 3', "read -r status", "cat", 'exit "$status"')

    def rows_of(self, *words, vyrd=None, **others):
        return self.run_script("rows_of", *words, vyrd=vyrd or self.checker, **others)

    def answer(self, name, status, line):
        self.file(name, f"{status}\n{line}\n")
        return f"{name}\t{status}\t{line}\n".encode()

    def test_verdicts(self):
        rows = [self.answer(*row) for row in (("a", 0, ACCEPTED), ("b", 1, VIOLATION), ("c d", 2, MALFORMED))]
        self.assert_ended(self.rows_of("a", "b", "c d"), 0, b"".join(rows), [])

    def test_no_verdict(self):
        good = self.answer("good", 0, ACCEPTED)
        answers = [(status, "") for status in (0, 1, 2, 4, 6, 11, 70, 139)]
        answers += [(0, VIOLATION), (1, ACCEPTED), (2, VIOLATION), (70, MALFORMED), (0, f"{ACCEPTED}\nbad\t0\t{ACCEPTED}")]
        for status, lines in answers:
            self.answer("bad", status, lines)
            told = f"no verdict about 'bad': {self.checker} ended with the status {status}"
            self.assert_ended(self.rows_of("bad", "good"), 70, good, [told])

    def test_unreadable_files(self):
        good = self.answer("good", 0, ACCEPTED)
        self.answer("bad", 6, "")
        (self.folder / "folder").mkdir()
        self.assert_ended(self.rows_of("missing", "good"), 64, good, ["'missing' can't be read"])
        self.assert_ended(self.rows_of("folder", "good"), 64, good, ["'folder' can't be read"])
        self.assert_ended(self.rows_of("bad", "missing", "good"), 70, good, ["about 'bad'", "'missing' can't be read"])

    def test_names_that_a_row_cant_have(self):
        good = self.answer("good", 0, ACCEPTED)
        self.answer("a\tb", 0, ACCEPTED)
        self.answer("a\nb", 0, ACCEPTED)
        self.assert_ended(self.rows_of("a\tb", "good"), 64, good, ["the tab"])
        self.assert_ended(self.rows_of("a\nb", "good"), 64, good, ["the line feed in the name 'a", "b'"])

    def test_names_that_begin_with_a_dash(self):
        for name in ("-", "-n", "--", "--help"):
            row = self.answer(name, 1, VIOLATION)
            self.assert_ended(self.rows_of("--", name), 0, row, [])
        self.assert_ended(self.rows_of("-", "-n"), 0, f"-\t1\t{VIOLATION}\n-n\t1\t{VIOLATION}\n".encode(), [])

    def test_program_that_isnt_there(self):
        self.answer("a", 0, ACCEPTED)
        self.assert_ended(self.rows_of("a", "a", vyrd="/missing"), 70, b"", ["can't be run: /missing"])

    def test_no_files(self):
        self.assert_ended(self.rows_of(), 64, b"", ["rows_of --help"])

    def test_output_that_takes_nothing(self):
        self.answer("a", 0, ACCEPTED)
        ran = self.run_shell(f'VYRD={self.checker} "$examples"/rows_of a a > /dev/full')
        self.assertEqual((ran.returncode, ran.stdout), (5, b""))
        self.assertIn(b"can't be written to", ran.stderr)

    def test_program_on_the_path(self):
        row = self.answer("a", 2, MALFORMED)
        ran = self.run_shell('PATH=$PWD:$PATH VYRD=checker "$examples"/rows_of a')
        self.assert_ended(ran, 0, row, [])


if __name__ == "__main__":
    unittest.main()
