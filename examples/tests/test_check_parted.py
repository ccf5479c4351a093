"""Tests of many/check_parted: what it says of a log in parts is what `check` says of the whole, even if the log is damaged."""

import os
import random
import subprocess
import unittest

from scripts import EXAMPLES, ScriptTest

VYRD = os.environ.get("VYRD") or str(EXAMPLES.parent / "vyrd")
OPERATIONS = 300
SIZES = {"multiset": 4, "cache": 4, "tree": 30, "buffers": 4}

# Operations, in which the letter says below what a number is drawn: n is the size.
METHODS = {
    "multiset": ["insert k", "insert_pair k k", "delete k", "lookup k"],
    "cache": ["write n k k", "flush n", "evict n", "read n"],
    "tree": ["insert v k", "insert v k", "delete v", "lookup v"],
    "buffers": ["append n c", "append_from n n", "cut n n", "read n", "length n"],
}


def operation(subject, draw):
    """An operation drawn at random."""
    below = {"k": 16, "v": 90, "c": 255, "n": SIZES[subject]}
    method, *letters = METHODS[subject][draw(len(METHODS[subject]))].split()
    return " ".join([method, *(str(draw(below[letter])) for letter in letters)])


def log_of(subject, variant, callers, draw):
    """The lines of a log of a run by turns."""
    lines = [f"work {subject} {SIZES[subject]} {callers} {variant}"]
    lines += [f"op {place % callers} {operation(subject, draw)}" for place in range(OPERATIONS)]
    lines += [f"turn {draw(callers)} {draw(29) + 1}" for _ in range(OPERATIONS)]
    text = "\n".join([*lines, "end", ""]).encode()
    ran = subprocess.run([VYRD, "step", "--log"], input=text, stdout=subprocess.PIPE, check=False)
    return ran.stdout.splitlines(keepends=True)[:-1]


def damaged(log, draw):
    """A log in several forms: as it stands, of version 2, cut off, without a line, with one twice, and with a strange one."""
    place = 1 + draw(len(log) - 1)
    strange = [b"start 0 1\n", b"end\n", b"0 commit\n", b"1 open\n", b"x\n", b"0 write 0 7\n", b"0 call write 1 2\n"]
    yield log
    yield [log[0].replace(b"vyrd 1", b"vyrd 2"), *log[1:]]
    yield log[:place]
    yield log[:place] + log[place + 1 :]
    yield log[:place] + [log[1 + draw(len(log) - 1)]] + log[place:]
    yield log[:place] + [strange[draw(len(strange))]] + log[place:]


class CheckParted(ScriptTest):
    def whole(self, log):
        ran = subprocess.run([VYRD, "check"], input=log, stdout=subprocess.PIPE, check=False)
        return ran.returncode, ran.stdout

    def parted(self, log, *words):
        self.file("log", log)
        return self.run_script("many/check_parted", "log", *words, vyrd=VYRD)

    def test_same_verdict(self):
        draw = random.Random(7).randrange
        for subject in SIZES:
            for variant in ("correct", "broken"):
                log = log_of(subject, variant, 1 + draw(4), draw)
                for lines in damaged(log, draw):
                    text = b"".join(lines)
                    ran = self.parted(text, str(2 + draw(12)))
                    self.assertEqual((ran.returncode, ran.stdout), self.whole(text), (subject, variant, ran.stderr))

    def test_log_is_parted(self):
        draw = random.Random(8).randrange
        for subject in SIZES:
            ran = self.parted(b"".join(log_of(subject, "correct", 1, draw)), "3")
            self.assert_ended(ran, 0, ran.stdout, ["judged in parts: 3"])

    def test_commit_inside_a_block(self):
        """In version 1 it is refused, and the parts are of version 2."""
        insert = b"0 call insert 0\n0 write 1 0\n0 open\n0 write 0 2\n0 close commit\n0 return 1\n"
        delete = b"0 call delete 0\n0 open\n0 write 0 0\n0 close commit\n0 return 1\n"
        inside = delete.replace(b"0 close commit", b"0 commit\n0 close")
        for version, told in ((b"1", "judged as a whole"), (b"2", "judged in parts: 2")):
            text = b"vyrd " + version + b" multiset 1 1\n" + 9 * (insert + delete) + insert + inside + b"end\n"
            ran = self.parted(text, "2")
            status, line = self.whole(text)
            self.assert_ended(ran, status, line, [told])

    def test_words_that_stand_for_no_state(self):
        """An element in another bucket than its own is no starting word, so the part is judged with the one before it."""
        insert = b"0 call insert 1\n0 write 1 1\n0 open\n0 write 0 2\n0 close commit\n0 return 1\n"
        lookups = 40 * b"0 call lookup 1\n0 return 1\n"
        for end in (b"end\n", b"0 call lookup 1\n0 return 0\nend\n"):
            text = b"vyrd 1 multiset 2 1\n" + insert + lookups + end
            ran = self.parted(text, "3")
            self.assertEqual((ran.returncode, ran.stdout), self.whole(text))

    def test_misuse(self):
        self.file("log", b"x\n")
        self.assert_ended(self.run_script("many/check_parted", vyrd=VYRD), 64, b"", ["it wants a log"])
        self.assert_ended(self.run_script("many/check_parted", "missing", vyrd=VYRD), 64, b"", ["missing can't be read"])
        self.assert_ended(self.run_script("many/check_parted", "log", "x", vyrd=VYRD), 64, b"", ["PARTS is a number"])
        self.assert_ended(self.run_script("many/check_parted", "log", vyrd="/missing"), 70, b"", ["/missing can't be run"])


if __name__ == "__main__":
    unittest.main()
