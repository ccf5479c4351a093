"""What of a log has to stay true while executions of it go, by what the program says of it."""

import subprocess
import tempfile
import unittest

from evidence import evidence
from logtext import Log
from parts import Parts, folded, without
from support import PROGRAM, QUEUE, ProgramTest

# A list in the first chain of a tree. Node 1 has 10 and node 2 has 20; caller 0 takes 10 out, and caller 1 links behind it.
LINES = """vyrd 1 tree 4 2
0 call insert 10 0
0 write 16 10
0 write 13 1
0 write 3 1
0 commit
0 return 1
0 call insert 20 0
0 write 28 20
0 write 25 1
0 write 15 2
0 commit
0 return 1
1 call insert 30 0
0 call delete 10
0 write 3 2
0 commit
0 return 1
1 write 40 30
1 write 37 1
1 write 39 2
1 write 15 3
1 commit
1 return 1
end
"""


class EvidenceTest(ProgramTest):
    def log(self, text, answer):
        file = tempfile.TemporaryFile(buffering=0)
        self.addCleanup(file.close)
        file.write(text.encode())
        return Log(file, "-", answer)

    def parts(self, text, answer):
        return Parts(self.log(text, answer))

    def check(self, text):
        """What the program answers to a log."""
        ran = subprocess.run([PROGRAM, "check"], input=text.encode(), capture_output=True, check=False)
        return ran.stdout.decode().strip()

    def of(self, parts, less):
        """The evidence in what is left of a log, or None if it hasn't the same fault."""
        text, answer = parts.text(less)
        return evidence(self.log(text, answer), parts.own_lines(less), self.check) if self.check(text) == answer else None

    def assert_needed(self, parts, gone, is_folded=False):
        """Whether these units are: the evidence isn't kept without them, or with their writes at the start."""
        whole = parts.whole()
        found = self.of(parts, folded(parts, whole, gone) if is_folded else without(whole, gone))
        self.assertFalse(found and self.of(parts, whole).is_kept(found))

    def assert_not_needed(self, parts, gone, is_folded=False):
        whole = parts.whole()
        found = self.of(parts, folded(parts, whole, gone) if is_folded else without(whole, gone))
        self.assertTrue(found and self.of(parts, whole).is_kept(found))


class TakenOut(EvidenceTest):
    def test_what_put_a_node_in_and_what_took_it_out_stay(self):
        parts = self.parts(LINES, "violation at line 23: view differs at key 30")
        self.assertEqual(self.of(parts, parts.whole()).taken_out, ((1, True),))
        self.assert_needed(parts, {0})
        self.assert_needed(parts, {2})
        self.assert_needed(parts, {2}, is_folded=True)
        self.assert_needed(parts, {0, 1, 2}, is_folded=True)

    def test_a_node_that_the_call_itself_takes_out_does_not_count(self):
        begin = LINES[: LINES.index("1 call insert 30")]
        call = "1 call insert 30 0\n1 write 25 0\n1 write 15 0\n1 commit\n1 return 1\nend\n"
        parts = self.parts(begin + call, "violation at line 17: view differs at key 20")
        self.assertEqual(self.of(parts, parts.whole()).taken_out, ())


class Replies(EvidenceTest):
    """Of a reply that was right once, what made it right and what made it wrong stay."""

    def test_a_key_that_was_taken_out(self):
        log = "vyrd 1 tree 1 1\n0 call insert 5 7\n0 write 4 5\n0 write 8 7\n0 write 1 1\n0 commit\n0 return 1\n"
        log += "0 call delete 5\n0 write 1 0\n0 commit\n0 return 1\n0 call delete 5\n0 commit\n0 return 1\nend\n"
        parts = self.parts(log, "violation at line 13: reply 1 not allowed")
        self.assert_needed(parts, {0, 1})
        self.assert_needed(parts, {1})
        self.assert_needed(parts, {0, 1}, is_folded=True)

    def test_an_observer_that_comes_too_late(self):
        log = "vyrd 1 multiset 1 2\n0 call insert 5\n0 write 1 5\n0 write 0 2\n0 commit\n0 return 1\n"
        log += "0 call delete 5\n0 write 0 0\n0 commit\n0 return 1\n1 call lookup 5\n1 return 1\nend\n"
        parts = self.parts(log, "violation at line 12: observer reply 1 in no state")
        self.assertTrue(self.of(parts, parts.whole()).was_right)
        self.assert_needed(parts, {0, 1})
        self.assert_needed(parts, {0, 1}, is_folded=True)

    def test_an_observer_that_comes_too_early(self):
        log = "vyrd 1 multiset 1 2\n0 call insert 5\n0 write 1 5\n0 open\n0 write 0 2\n1 call lookup 5\n1 return 1\n"
        log += "0 close commit\n0 return 1\nend\n"
        parts = self.parts(log, "violation at line 7: observer reply 1 in no state")
        self.assertEqual(self.of(parts, parts.whole()).seen, (1, False))
        self.assert_needed(parts, {1 - parts.marked})

    def test_an_element_of_a_queue_that_was_taken_twice(self):
        run = ""
        for x in (4, 5):
            run += f"0 call enqueue {x}\n0 write {2 * x - 7} {x}\n0 write {2 * x - 8} 1\n0 commit\n0 return 1\n"
        run += "1 call dequeue\n1 write 0 0\n1 commit\n1 return 5\n0 call dequeue\n0 write 2 0\n0 commit\n0 return 5\nend\n"
        for callers in (2, 256):  # of 256 there can't be one more
            parts = self.parts(QUEUE.replace("own 8 2", f"own 8 {callers}") + run, "violation at line 33: reply 5 not allowed")
            self.assertTrue(self.of(parts, parts.whole()).was_right)
        self.assert_needed(parts, {0})
        self.assert_needed(parts, {2})
        self.assert_not_needed(parts, {1}, is_folded=True)


if __name__ == "__main__":
    unittest.main()
