"""Tests of what follows a log. The lines were worked out by hand, from the definitions of crates/vyrd_follow/specs and docs/."""

import sys
import tempfile
import unittest
from unittest.mock import patch

from samples import EFFECTS
from scripts import EXAMPLES

sys.path[:0] = [str(EXAMPLES), *(str(EXAMPLES.parent / folder) for folder in ("examples/reference", "tools", "specifications"))]

import following
from fronts import front
from logtext import Log

# Each case: the log, the verdict, and the lines behind it.
BUILT_IN = [
    # The insert that replies 0 does nothing. All that the other one's block writes counts at the commit inside it: the 5 goes
    # into two slots, one of which held a 7, and the first then gets a 6.
    (
        """vyrd 2 multiset 1 2
start 2 2
start 3 7
1 call insert 8
1 commit
1 return 0
0 call insert 5
0 write 1 5
0 open
0 commit
0 write 0 2
0 write 3 5
0 write 1 6
0 close
0 return 1
end
""",
        "violation at line 10: view differs at key 6",
        """agreed at the start: key 7 amount 1
write at line 8: word 1 from 0 to 5, in effect at line 8
change at line 11: word 0 from 0 to 2, in effect at line 10, key 5 amount 0 to 1
change at line 12: word 3 from 7 to 5, in effect at line 10, key 5 amount 1 to 2
change at line 12: word 3 from 7 to 5, in effect at line 10, key 7 amount 1 to 0
change at line 13: word 1 from 5 to 6, in effect at line 10, key 5 amount 2 to 1
change at line 13: word 1 from 5 to 6, in effect at line 10, key 6 amount 0 to 1
step at line 10: key 5 amount 1""",
    ),
    # From the reply that is refused on there are no steps. Writes go on up to the commit inside a block, which version 1 hasn't;
    # that block doesn't end before.
    (
        """vyrd 1 cache 1 2
0 call write 0 1 2
0 open
0 write 1 1
0 write 2 2
0 write 0 2
0 close commit
0 return 1
1 call evict 0
1 open
1 write 3 1
1 close commit
1 return 0
0 call write 0 3 2
0 write 1 3
0 open
0 write 1 9
0 commit
0 write 1 8
0 close
0 return 1
""",
        "violation at line 12: reply 0 not allowed",
        """write at line 4: word 1 from 0 to 1, in effect at line 7
write at line 5: word 2 from 0 to 2, in effect at line 7
change at line 6: word 0 from 0 to 2, in effect at line 7, key 0 amount 0 to 8589934593
step at line 7: key 0 amount 8589934593
write at line 11: word 3 from 0 to 1, in effect at line 12
change at line 15: word 1 from 1 to 3, in effect at line 15, key 0 amount 8589934593 to 8589934595""",
    ),
    # The first commit's execution doesn't return, so it isn't known what it did, nor what the second one did.
    (
        """vyrd 1 multiset 1 2
0 call insert 5
0 commit
1 call insert 6
1 write 1 6
1 write 0 2
1 commit
1 return 1
end
""",
        "malformed at line 9: call not returned",
        """write at line 5: word 1 from 0 to 6, in effect at line 5
change at line 6: word 0 from 0 to 2, in effect at line 6, key 6 amount 0 to 1""",
    ),
    # The 5 belongs into bucket 1, so words show something at the start that no state has.
    (
        "vyrd 2 multiset 2 1\nstart 0 2\nstart 1 5\n0 call insert 4\n0 write 1 4\n0 commit\n0 return 1\nend\n",
        "malformed at line 2: start stands for no state",
        """change at line 5: word 1 from 5 to 4, in effect at line 5, key 4 amount 0 to 1
change at line 5: word 1 from 5 to 4, in effect at line 5, key 5 amount 1 to 0""",
    ),
    # Node 1 comes into the chain with its key, and then leads back to itself for a while.
    (
        """vyrd 2 tree 3 1
start 1 1
start 4 9
start 8 3
0 call insert 2 7
0 open
0 write 13 1
0 write 16 2
0 write 20 7
0 write 3 1
0 write 15 1
0 write 15 0
0 close commit
0 return 1
end
""",
        "accepted: 10 entries, 1 commits, 0 observers",
        """agreed at the start: key 9 amount 4294967299
write at line 7: word 13 from 0 to 1, in effect at line 13
write at line 8: word 16 from 0 to 2, in effect at line 13
write at line 9: word 20 from 0 to 7, in effect at line 13
change at line 10: word 3 from 0 to 1, in effect at line 13, key 2 amount 0 to 4294967303
change at line 11: word 15 from 0 to 1, in effect at line 13, key 8589934592 amount 0 to 1
change at line 12: word 15 from 1 to 0, in effect at line 13, key 8589934592 amount 1 to 0
step at line 13: key 2 amount 4294967303""",
    ),
    # A pair of values in the order of the arguments, and then one value twice. A step stands where its commit does, also if
    # another execution commits before this one returns.
    (
        """vyrd 1 multiset 1 2
0 call insert_pair 7 5
0 open
0 write 1 7
0 write 0 2
0 write 3 5
0 write 2 2
0 close commit
1 call insert_pair 7 7
1 open
1 write 5 7
1 write 4 2
1 write 7 7
1 write 6 2
1 close commit
1 return 1
0 return 1
end
""",
        "accepted: 16 entries, 2 commits, 0 observers",
        """write at line 4: word 1 from 0 to 7, in effect at line 8
change at line 5: word 0 from 0 to 2, in effect at line 8, key 7 amount 0 to 1
write at line 6: word 3 from 0 to 5, in effect at line 8
change at line 7: word 2 from 0 to 2, in effect at line 8, key 5 amount 0 to 1
step at line 8: key 7 amount 1
step at line 8: key 5 amount 1
write at line 11: word 5 from 0 to 7, in effect at line 15
change at line 12: word 4 from 0 to 2, in effect at line 15, key 7 amount 1 to 2
write at line 13: word 7 from 0 to 7, in effect at line 15
change at line 14: word 6 from 0 to 2, in effect at line 15, key 7 amount 2 to 3
step at line 15: key 7 amount 3""",
    ),
    # A write that gives a word the value that it has. A text is appended to itself: 66 is 1 + 65, and 16962 is 66 + 256 * 66.
    (
        """vyrd 1 buffers 1 1
0 call append 0 65
0 write 1 65
0 write 0 1
0 commit
0 return 1
0 call append_from 0 0
0 write 2 65
0 write 0 2
0 write 0 2
0 commit
0 return 1
""",
        "malformed at line 13: no end",
        """write at line 3: word 1 from 0 to 65, in effect at line 3
change at line 4: word 0 from 0 to 1, in effect at line 4, key 0 amount 0 to 66
step at line 5: key 0 amount 66
write at line 8: word 2 from 0 to 65, in effect at line 8
change at line 9: word 0 from 1 to 2, in effect at line 9, key 0 amount 66 to 16962
write at line 10: word 0 from 2 to 2, in effect at line 10
step at line 11: key 0 amount 16962""",
    ),
]
OWN = [
    (
        EFFECTS,
        "violation at line 29: reply 9 not allowed",
        """step at line 23: key 7 amount 5
step at line 23: hidden key 7 amount 18446744073709551615
step at line 23: list 0 append 7
step at line 23: list 0 prepend 9
step at line 23: list 1 drop last
step at line 23: list 1 drop first
step at line 23: register 0 value 4
step at line 26: clear
step at line 26: list 1 clear""",
    ),
    # The last word is in no whole part, so the words stand for no state, and it shows nothing. A note is a line.
    (
        """vyrd 3 own 5 1
part 2
  shows w0 1
  shows w1 2
method put k
  allow (reply == 1)
    set [k] 1
log
start 0 3
0 call put 3
# a note
0 write 0 4
0 write 4 7
0 commit
0 return 1
end
""",
        "malformed at line 9: start stands for no state",
        """change at line 12: word 0 from 3 to 4, in effect at line 12, key 3 amount 1 to 0
change at line 12: word 0 from 3 to 4, in effect at line 12, key 4 amount 0 to 1
write at line 13: word 4 from 0 to 7, in effect at line 13""",
    ),
    # Two parts that show the greatest number show twice as much.
    (
        """vyrd 3 own 2 1
part 1
  shows 5 (if w0 then none else 0)
method put
  allow (reply == 1)
    set [5] none
log
0 call put
0 write 0 1
0 write 1 1
0 commit
0 return 1
""",
        "violation at line 11: view differs at key 5",
        """change at line 9: word 0 from 0 to 1, in effect at line 9, key 5 amount 0 to 18446744073709551615
change at line 10: word 1 from 0 to 1, in effect at line 10, key 5 amount 18446744073709551615 to 36893488147419103230
step at line 11: key 5 amount 18446744073709551615""",
    ),
    # Without a part, words show nothing. A register that is set to what it was is told too.
    (
        """vyrd 3 own 2 1
register held 0
method put k
  allow (reply == 1)
    set held k
method forget
  answer 0
  allow (reply == 1)
    set held none
log
0 call put 4
0 write 1 6
0 commit
0 return 1
0 call forget
0 commit
0 return 1
0 call forget
0 return 0
0 call forget
0 commit
0 return 1
end
""",
        "accepted: 12 entries, 3 commits, 1 observers",
        """write at line 12: word 1 from 0 to 6, in effect at line 12
step at line 13: register 0 value 4
step at line 16: register 0 value none
step at line 21: register 0 value none""",
    ),
]
UNREAD = [
    ("", "malformed at line 1: no end", ""),
    ("vyrd 4 multiset 1 1\n0 call lookup 5\n", "malformed at line 1: unknown version", ""),
    ("vyrd 3 own 2 2\nmethod m\nlog\n", "malformed at line 3: method without a case", ""),
]
STARTED = "vyrd 2 multiset 1 1\nstart 0 2\nstart 1 5\n"
SHOWN = "agreed at the start: key 5 amount 1"

# What may stand behind `vyrd 2 multiset 1 2`, with the number of entries up to the first that breaks a rule.
KEPT = [
    (6, "0 call insert 5|0 open|0 write 0 1|0 close|0 commit|0 return 0|end"),
    (6, "0 call insert 5|0 open|0 commit|0 write 0 1|0 close|0 return 0|end|0 call insert 5"),
    (1, "1 call lookup 5|2 call lookup 5"),
    (1, "1 call lookup 5|1 call lookup 5"),
    (1, "1 call lookup 5|0 return 5"),
    (1, "1 call lookup 5|0 write 0 5"),
    (1, "1 call lookup 5|0 open"),
    (2, "1 call lookup 5|1 open|1 return 5"),
    (2, "1 call lookup 5|1 open|1 open"),
    (3, "1 call lookup 5|1 open|1 close|1 close"),
    (2, "1 call lookup 5|1 return 5|1 return 5"),
    (1, "1 call lookup 5|1 commit"),
    (2, "1 call lookup 5|1 open|1 close commit"),
    (1, "1 call insert 5|1 return 0"),
    (2, "1 call insert 5|1 commit|1 commit"),
    (3, "1 call insert 5|1 commit|1 open|1 close commit"),
    (1, "1 call insert 5|1 close commit"),
    (2, "1 call insert 5|1 write 7 9223372036854775807|1 write 8 0"),
    (1, "1 call insert 5|1 write 7 9223372036854775808"),
    (1, "1 call insert 4294967295|0 call insert 4294967296"),
    (1, "1 call insert 5|0 call lookup 5 5"),
    (1, "1 call insert 5|0 call read 5"),
    (1, "1 call insert 5|1 write 0 01"),
    (1, "1 call insert 5|0  call insert 5"),
    (1, "1 call insert 5|start 0 1"),
    (2, "1 call lookup 5|1 return 18446744073709551615|1 call lookup 5 "),
    (1, "1 call lookup 5|1 return 18446744073709551616"),
    (1, "1 call lookup 5|# a note"),
    # Another caller's open block has written the word, or has ended.
    (4, "0 call lookup 5|1 call lookup 5|0 open|0 write 3 1|1 write 3 1"),
    (6, "0 call lookup 5|1 call lookup 5|0 open|0 write 3 1|0 close|1 write 3 1|1 write 8 1"),
    (6, "0 call lookup 5|1 call lookup 5|0 open|0 write 3 1|0 write 3 1|1 write 2 1|1 write 3 1"),
    # Another caller's write took effect behind the commit inside the own block: outside a block, or in a block that ended. It
    # didn't if the commit inside that block stands before the own one.
    (5, "0 call insert 5|1 call insert 5|0 open|0 commit|1 write 3 1|0 write 3 1"),
    (6, "0 call insert 5|1 call insert 5|1 write 3 1|0 open|0 commit|0 write 3 1|0 return 0"),
    (7, "0 call insert 5|1 call insert 5|0 open|0 commit|1 open|1 write 3 1|1 close commit|0 write 3 1"),
    (9, "0 call insert 5|1 call insert 5|1 open|1 commit|0 open|0 commit|1 write 3 1|1 close|0 write 3 1|0 return 0"),
    (8, "0 call insert 5|1 call insert 5|0 open|0 commit|1 open|1 commit|1 write 3 1|1 close|0 write 3 1"),
    (7, "0 call insert 5|1 call insert 5|0 open|0 commit|0 close|1 write 3 1|0 write 3 1|0 write 8 1"),
]


def log_of(text, answer, file):
    """A log in a file, with its verdict."""
    file.write(text.encode())
    return Log(file, "-", answer)


class Lines(unittest.TestCase):
    def assert_lines(self, text, answer, lines):
        with tempfile.TemporaryFile(buffering=0) as file:
            self.assertEqual("\n".join(following.lines_along(log_of(text, answer, file))), lines, text)

    def test_cases(self):
        for text, answer, lines in [*BUILT_IN, *OWN, *UNREAD]:
            with self.subTest(answer=answer):
                self.assert_lines(text, answer, lines)

    def test_words_at_the_start_behind_which_no_entry_stands(self):
        """Whether they stand for a state isn't said by the verdict, so it is asked about what would be."""
        for text, answer in (
            (STARTED, "malformed at line 4: no end"),
            (STARTED + "start 1 6\n0 call lookup 5\n", "malformed at line 4: start word not rising"),
            (STARTED + "0 call lookup 05\n", "malformed at line 4: bad entry"),
        ):
            for status, lines in ((0, SHOWN), (2, "")):
                with patch("following.checked", return_value=(status, "")) as checked:
                    self.assert_lines(text, answer, lines)
                    checked.assert_called_once_with(STARTED + "end\n")
        self.assert_lines(STARTED + "0 write 0 1\n", "malformed at line 4: no call open", SHOWN)
        self.assert_lines(STARTED + "end\n\n", "malformed at line 5: text after end", SHOWN)


class Fronts(unittest.TestCase):
    def assert_kept(self, text, count):
        with tempfile.TemporaryFile(buffering=0) as file:
            self.assertEqual(len(list(front(log_of(text, "", file)))), count, text)

    def test_rules_of_shape(self):
        for count, entries in KEPT:
            self.assert_kept("vyrd 2 multiset 1 2\n" + entries.replace("|", "\n") + "\n", count)

    def test_arguments_of_other_structures(self):
        for subject, calls, bad in (
            ("cache", "write 0 9 9|flush 0|evict 0|read 0", "read 1"),
            ("buffers", "append 0 254|append_from 0 0|cut 0 9|length 0|read 0", "append_from 0 1"),
            ("buffers", "append 0 254", "append 0 255"),
            ("tree", "insert 9 9|delete 9|lookup 9", "delete"),
        ):
            lines = [f"{caller} call {call}\n" for caller, call in enumerate([*calls.split("|"), bad])]
            self.assert_kept(f"vyrd 1 {subject} 1 9\n{''.join(lines)}", len(lines) - 1)

    def test_versions(self):
        entries = "0 call insert 5\n0 open\n0 commit\n0 close\n0 return 0\n"
        self.assert_kept(f"vyrd 1 multiset 1 1\n{entries}", 2)
        self.assert_kept(f"vyrd 2 multiset 1 1\n{entries}", 5)
        self.assert_kept(f"vyrd 1 multiset 1 1\nstart 0 1\n{entries}", 0)
        self.assert_kept(f"vyrd 2 multiset 1 1\nstart 0 1\n# a note\n{entries}", 0)

    def test_line_without_its_line_feed(self):
        self.assert_kept("vyrd 1 multiset 1 1\n0 call insert 5\n0 open", 1)

    def test_own_methods(self):
        """One that only looks may not commit, one with an answer and cases need not, and one with cases alone has to."""
        front_of = "vyrd 3 own 1 1\nmethod a\n  answer 0\nmethod b\n  answer 0\n  allow 1\nmethod c k\n  allow 1\nlog\n"
        for count, entries in (
            (2, "0 call a|0 return 0"),
            (1, "0 call a|0 commit"),
            (5, "0 call b|0 return 0|0 call b|0 commit|0 return 0"),
            (1, "0 call c 1|0 return 0"),
            (6, "0 call c 1|# a note|0 open|0 commit|0 write 0 1|0 close|0 return 18446744073709551614"),
            (2, "0 call c 1|0 commit|0 return 18446744073709551615"),
            (0, "0 call c"),
            (0, "0 call d"),
            (1, f"0 call a|#{'x' * 199}|#{'x' * 200}|0 return 0"),
        ):
            self.assert_kept(front_of + entries.replace("|", "\n") + "\n", count)


if __name__ == "__main__":
    unittest.main()
