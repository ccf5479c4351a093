"""Tests of specifications/check, over a folder of its own with a checker that knows what it has to answer."""

import sys
import unittest
from pathlib import Path

HERE = Path(__file__).resolve().parent.parent
sys.path[:0] = [str(HERE), str(HERE.parent / "examples/tests"), str(HERE.parent / "tools")]

from scripts import ScriptTest
from spoiling import spoilt

SPECIFICATION = """vyrd 3 own 0 1
register held 0
method add n
  allow ((n > 0) and (reply == held))
    set held (held + n)
log
"""
RIGHT = "0 call add 1\n0 commit\n0 return 0\n# accepted: 3 entries, 1 commits, 0 observers\nend\n"
WRONG = "0 call add 1\n0 commit\n# violation: reply 7 not allowed\n0 return 7\nend\n"

# What it answers: the right verdicts about both logs, and about any log whose specification is spoilt the other one.
CHECKER = """#!/usr/bin/env python3
import sys

def verdict(log):
    wrong = "0 return 7" in log
    if {seen} and ("allow 0" in log or "(1 and" in log or "and 1)" in log or "#    set" in log):
        wrong = not wrong
    return "violation at line 8: reply 7 not allowed" if wrong else "accepted: 3 entries, 1 commits, 0 observers"

text = sys.stdin.read()
if sys.argv[1] == "check":
    print(verdict(text))
    sys.exit(int(verdict(text).startswith("violation")))
logs = text.split("\\nlog ")[1:]
for place, log in enumerate(logs):
    print(f"log {{place}}: {{verdict(log)}}")
print(f"batch: {{len(logs)}} logs")
"""


class Check(ScriptTest):
    def check(self, *words, right=RIGHT, wrong=WRONG, seen=True):
        """Runs a copy of the script, with one specification and two logs."""
        for name in ("check", "judging.py", "spoiling.py"):
            self.file(f"specifications/{name}", (HERE / name).read_bytes()).chmod(0o755)
        self.file("tools/command.py", (HERE.parent / "tools/command.py").read_bytes())
        self.file("specifications/sum.spec", SPECIFICATION)
        self.file("specifications/logs/sum/right.log", right)
        self.file("specifications/logs/sum/wrong.log", wrong)
        checker = self.file("checker", CHECKER.format(seen=seen))
        checker.chmod(0o755)
        return self.run_script(self.folder / "specifications/check", *words, vyrd=checker)

    def test_help_and_misuse(self):
        ran = self.check("--help")
        self.assert_ended(ran, 0, ran.stdout, [])
        self.assertIn(b"specifications/check [NAME...]", ran.stdout)
        self.assertIn(b"specifications/check FOLDER/NAME.spec", ran.stdout)
        self.assert_ended(self.check("none"), 64, b"", ["there is no specification none here"])
        self.assert_ended(self.check("--none"), 64, b"", ["there is no option --none"])
        self.assert_ended(self.check("none.spec"), 64, b"", ["none.spec can't be read: No such file"])

    def test_right_answers(self):
        said = b"specifications: 2 logs passed, 0 failed; 4 spoilt lines shown, 0 not\n"
        self.assert_ended(self.check(), 0, said, [])
        self.assert_ended(self.check("sum"), 0, said, [])

    def test_specification_of_another_folder(self):
        """One's own stands anywhere, with its logs beside it."""
        self.check()
        script = self.folder / "specifications/check"
        self.file("own/mine.spec", SPECIFICATION)
        for name, text in (("right", RIGHT), ("wrong", WRONG)):
            self.file(f"own/logs/mine/{name}.log", text)
        said = b"specifications: 2 logs passed, 0 failed; 4 spoilt lines shown, 0 not\n"
        for word in (str(self.folder / "own/mine.spec"), "own/mine.spec"):
            self.assert_ended(self.run_script(script, word, vyrd=self.folder / "checker"), 0, said, [])
        self.file("own/other.spec", SPECIFICATION)
        ran = self.run_script(script, "own/other.spec", vyrd=self.folder / "checker")
        self.assert_ended(ran, 64, b"", ["other has no log that is accepted, or none that isn't, in own/logs/other"])

    def test_log_with_a_wrong_note_shows_nothing(self):
        """The log that is accepted is the only one that gets another answer by a spoilt line, and its note is wrong."""
        of_right = '"0 return 7" not in log'
        said = b"specifications: 2 logs passed, 0 failed; 4 spoilt lines shown, 0 not\n"
        self.assert_ended(self.check(seen=of_right), 0, said, [])
        ran = self.check(right=RIGHT.replace("3 entries", "30 entries"), seen=of_right)
        self.assertEqual((ran.returncode, ran.stderr), (1, b""))
        self.assertIn(b"specifications: 1 logs passed, 1 failed; 0 spoilt lines shown, 4 not\n", ran.stdout)

    def test_wrong_answers(self):
        for wrong in (WRONG.replace("reply 7", "reply 8"), WRONG.replace("violation", "malformed")):
            ran = self.check(wrong=wrong)
            self.assertEqual((ran.returncode, ran.stderr), (1, b""))
            self.assertIn(b"sum/wrong: status 1 and `violation at line 8: reply 7 not allowed`", ran.stdout)
            self.assertIn(b"1 logs passed, 1 failed", ran.stdout)

    def test_line_that_no_log_shows(self):
        ran = self.check(seen=False)
        self.assertEqual((ran.returncode, ran.stderr), (1, b""))
        self.assertIn(b"sum.spec, line 4: no log shows that it is spoilt as `  allow 0`\n", ran.stdout)
        self.assertIn(b"0 spoilt lines shown, 4 not\n", ran.stdout)

    def test_notes(self):
        self.assert_ended(self.check(wrong="end\n"), 64, b"", ["sum/wrong has 0 notes that say its answer"])
        self.assert_ended(self.check(wrong=WRONG + WRONG), 64, b"", ["sum/wrong has 2 notes"])
        self.assert_ended(self.check(wrong=RIGHT), 64, b"", ["sum has no log that is accepted, or none that isn't"])
        self.assert_ended(self.check(wrong=b"\xff"), 64, b"", ["wrong.log can't be read"])

    def test_program_without_a_verdict(self):
        self.check()
        script = self.folder / "specifications/check"
        self.assert_ended(self.run_script(script, vyrd="/missing"), 70, b"", ["can't be run: /missing"])
        for lines in (["exit 6"], ["echo accepted; exit 0"]):
            ran = self.run_script(script, vyrd=self.program("checker", *lines))
            self.assertEqual((ran.returncode, len(ran.stderr.splitlines())), (70, 1))


class Spoiling(unittest.TestCase):
    def ways(self, line):
        return [way.spoilt for way in spoilt(line)]

    def test_cases(self):
        self.assertEqual(self.ways("  allow (reply == 1)"), ["  allow 0", "  allow 1"])
        ways = ["  allow 0", "  allow ((1 and b) and (c == d))", "  allow ((a and 1) and (c == d))", "  allow ((a and b) and 1)"]
        self.assertEqual(self.ways("  allow ((a and b) and (c == d))"), ways)

    def test_values(self):
        self.assertEqual(self.ways("  answer [k]"), ["  answer none"])
        self.assertEqual(self.ways("  answer (if (a == b) then 0 else (c + 1))"), ["  answer 0", "  answer (c + 1)"])
        self.assertEqual(self.ways("  shows (w1 + 1) (w0 == 1)"), ["  shows (w1 + 1) none"])

    def test_changes(self):
        for line in ("    set [k] (v + 1)", "    drop first waiting", "    clear"):
            self.assertEqual(len(self.ways(line)), 1)
            self.assertTrue(self.ways(line)[0].startswith("#"))

    def test_lines_that_decide_nothing(self):
        self.assertEqual(self.ways("# allow a\nlet most 4\nregister free 3\nlist waiting\nmethod get k\n  let a [k]\nlog\n"), [])


if __name__ == "__main__":
    unittest.main()
