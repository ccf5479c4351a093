"""Tests of written_over and same_verdicts. What version 3 is stands in docs/LOG-FORMAT.md."""

import random
import sys
import unittest
from pathlib import Path

HERE = Path(__file__).resolve().parent.parent
sys.path[:0] = [str(HERE), str(HERE.parent / "examples/tests"), str(HERE.parent / "tools")]

from over import NotCarried, written_over
from scripts import ScriptTest
from spoiled_logs import spoiled, workload

MULTISET = "vyrd 1 multiset 2 3\n0 call insert 5\n0 commit\n0 return 1\nend\n"

# A checker that plays no workload, and that finds something on line 3 of each log, or of each of version 1 and 2.
CHECKER = """#!/usr/bin/env python3
import sys
text = sys.stdin.read()
if sys.argv[1] == "step":
    print("vyrd 1 multiset 1 1\\n0 call lookup 5\\n0 return 0\\nend\\naccepted: 2 entries, 0 commits, 1 observers")
    sys.exit(0)
logs, left = [], text.removeprefix("batch\\n")
while left != "end\\n":
    size, left = left.removeprefix("log ").split("\\n", 1)
    logs.append(left[: int(size)])
    left = left[int(size) :]
for place, log in enumerate(logs):
    line = 3 if "vyrd 3" not in log else 4 + log.partition("\\nlog\\n")[0].count("\\n") + {wrong}
    print(f"log {{place}}: malformed at line {{line}}: bad entry")
print(f"batch: {{len(logs)}} logs")
"""


class WrittenOver(ScriptTest):
    def written_over(self, *words, **others):
        return self.run_script(HERE / "written_over", *words, **others)

    def test_multiset(self):
        log, lines = written_over(MULTISET)
        self.assertTrue(log.startswith("vyrd 3 own 16 3\n# The multiset"))
        self.assertTrue(log.endswith("\nlog\n0 call insert 5\n0 commit\n0 return 1\nend\n"))
        self.assertEqual(log.split("\n")[1 + lines], "0 call insert 5")
        self.file("log", MULTISET)
        self.assert_ended(self.written_over("log"), 0, log.encode(), [])
        self.assert_ended(self.written_over(stdin=MULTISET.encode()), 0, log.encode(), [])

    def test_numbers_of_the_header(self):
        for header, numbers, size in (
            ("vyrd 2 cache 7 64", "vyrd 3 own 35 64", "let size 7"),
            ("vyrd 1 tree 1024 1", "vyrd 3 own 12290 1", "let there 4294967296"),
        ):
            lines = written_over(f"{header}\nend\n")[0].split("\n")
            self.assertEqual(lines[0], numbers)
            self.assertIn(size, lines)

    def test_starting_lines(self):
        for text in ("vyrd 2 multiset 1 1\nstart 0 2\nstart 1 5\nend\n", "vyrd 2 cache 1 1\nstart 0 1\nstart 1 7\nstart 3 7\nend\n"):
            self.assertTrue(written_over(text)[0].endswith("log\n" + text.partition("\n")[2]))

    def test_what_isnt_carried_over(self):
        for text, why in (
            ("", "line 1 is no header"),
            ("vyrd 1 multiset 1 1", "line 1 is no header"),
            ("vyrd 1 multiset 1025 1\nend\n", "line 1 is no header"),
            ("vyrd 1 buffers 1 1\nend\n", "line 1 is no header"),
            ("vyrd 3 own 1 1\nend\n", "line 1 is no header"),
            ("vyrd 1 multiset 1 1\nend\n# a note\n", "line 3: it would be a note"),
            ("vyrd 1 multiset 1 1\nstart 0 2\nend\n", "line 2: version 1 has no starting lines"),
            ("vyrd 2 multiset 2 1\nstart 0 2\nstart 1 5\nend\n", "line 2: more is asked of words at the start"),
            ("vyrd 2 cache 1 1\nstart 0 3\nend\n", "line 2: more is asked of words at the start"),
            ("vyrd 2 cache 1 1\nstart 0 1\nstart 1 7\nend\n", "line 2: more is asked of words at the start"),
            ("vyrd 2 tree 1 1\nstart 1 1\nend\n", "line 2: "),
            ("vyrd 1 cache 2 1\n0 call read 2\nend\n", "line 2: version 3 has no ranges of arguments"),
            ("vyrd 1 cache 2 1\n0 call read 1\n0 return 18446744073709551615\nend\n", "line 3: no reply of version 3"),
            ("vyrd 1 multiset 1 1\n0 call insert 5\n0 open\n0 commit\nend\n", "line 4: version 3 lets a commit stand"),
        ):
            with self.assertRaisesRegex(NotCarried, why):
                written_over(text)
            ran = self.written_over(stdin=text.encode())
            self.assert_ended(ran, 64, b"", [why])

    def test_words_and_files(self):
        ran = self.written_over("--help")
        self.assert_ended(ran, 0, ran.stdout, [])
        self.assertIn(b"specifications/written_over LOG", ran.stdout)
        self.assert_ended(self.written_over("a", "b"), 64, b"", ["b is one word too many"])
        self.assert_ended(self.written_over("--none"), 64, b"", ["there is no option --none"])
        self.assert_ended(self.written_over("missing"), 64, b"", ["missing can't be read"])
        self.assert_ended(self.written_over(stdin=bytes(range(256))), 64, b"", ["line 1 is no header"])
        self.file("-log", MULTISET)
        self.assertEqual(self.written_over("--", "-log").returncode, 0)

    def test_bytes_stay_as_they_are(self):
        log = b"vyrd 1 multiset 1 1\n\xff\x00 \r\nend\n"
        self.assertTrue(self.written_over(stdin=log).stdout.endswith(b"\nlog\n\xff\x00 \r\nend\n"))


class SameVerdicts(ScriptTest):
    def same_verdicts(self, *words, wrong=0):
        checker = self.file("checker", CHECKER.format(wrong=wrong))
        checker.chmod(0o755)
        return self.run_script(HERE / "same_verdicts", *words, vyrd=checker)

    def test_same(self):
        said = b"verdicts of built-in structures and of their specifications: 20 malformed; 0 differ\n"
        self.assert_ended(self.same_verdicts("--logs", "20"), 0, said, [])

    def test_others(self):
        ran = self.same_verdicts("--logs", "20", "--seed", "3", wrong=1)
        self.assertEqual((ran.returncode, ran.stderr), (1, b""))
        self.assertIn(b"of this log:\nvyrd ", ran.stdout)
        self.assertTrue(ran.stdout.endswith(b": 20 malformed; 20 differ\n"))

    def test_words(self):
        ran = self.same_verdicts("--help")
        self.assert_ended(ran, 0, ran.stdout, [])
        self.assert_ended(self.same_verdicts("--logs", "many"), 64, b"", ["--logs takes a number"])
        self.assert_ended(self.same_verdicts("more"), 64, b"", ["more is one word too many"])
        ran = self.run_script(HERE / "same_verdicts", vyrd="/missing")
        self.assert_ended(ran, 70, b"", ["can't be run: /missing"])

    def test_logs_are_spoilt(self):
        """Each is another one, and still one after a header."""
        log = MULTISET.replace("0 commit", "0 open\n0 write 0 2\n0 close commit")
        others = {spoiled(random.Random(seed), log, 1) for seed in range(300)}
        self.assertGreater(len(others), 40)
        self.assertTrue(all(other.startswith("vyrd ") for other in others))

    def test_workloads_are_drawn(self):
        for seed in range(50):
            lines = workload(random.Random(seed), "cache").split("\n")
            self.assertRegex(lines[0], "work cache [1-3] [1-4] (correct|broken)")
            self.assertEqual(lines[-2:], ["end", ""])


if __name__ == "__main__":
    unittest.main()
