"""Tests of explained. The lines of each case were worked out by hand, from the definitions of crates/vyrd_explain/specs."""

import os
import random
import sys
import tempfile
import unittest
from unittest.mock import patch

from samples import EFFECTS
from scripts import EXAMPLES, ScriptTest, module_of

sys.path[:0] = [str(EXAMPLES), str(EXAMPLES / "reference"), str(EXAMPLES.parent / "tools")]

from explaining import lines_behind
from logtext import Log

# Each case: the log, the verdict, and the lines behind it.
VIEWS = [
    # Nothing was written.
    (
        "vyrd 1 multiset 1 1\n0 call insert 5\n0 commit\n0 return 1\nend\n",
        "violation at line 3: view differs at key 5",
        """call at line 2
reply at line 4
agreed at the start: key 5 amount 0
words after line 3: key 5 amount 0
state after line 3: key 5 amount 1""",
    ),
    # What is written behind the commit inside its block counts at it. The 5 goes into two slots, and the first then gets a 6.
    (
        """vyrd 2 multiset 1 2
start 2 2
start 3 7
1 call insert 8
1 commit
1 return 0
0 call insert 5
0 write 1 5
0 open
0 commit
0 write 0 2
0 write 3 5
0 write 1 6
0 close
0 return 1
end
""",
        "violation at line 10: view differs at key 6",
        """call at line 7
reply at line 15
agreed at line 5: key 6 amount 0
words after line 10: key 6 amount 1
part 0 after line 10: key 6 amount 1
change at line 13: word 1 from 5 to 6, in effect at line 10, key 6 amount 0 to 1
state after line 10: key 6 amount 0""",
    ),
    # A pair that tears: each half is a change. The write on line 10 counts where it stands, before the commit of another caller.
    (
        """vyrd 1 cache 1 2
0 call write 0 1 2
0 open
0 write 1 1
0 write 2 2
0 write 0 2
0 close commit
0 return 1
0 call write 0 3 4
0 write 1 3
1 call evict 0
1 commit
1 return 1
""",
        "violation at line 12: view differs at key 0",
        """call at line 11
reply at line 13
agreed at line 7: key 0 amount 8589934593
words after line 12: key 0 amount 8589934595
part 0 after line 12: key 0 amount 8589934595
change at line 10: word 1 from 1 to 3, in effect at line 10, key 0 amount 8589934593 to 8589934595
state after line 12: key 0 amount 8589934593""",
    ),
    # The right word of node 0 leads past the nodes: that is damage, which no state has. The key is 2^33.
    (
        "vyrd 1 tree 2 1\n0 call insert 1 2\n0 write 4 1\n0 write 8 2\n0 write 1 1\n0 write 3 9\n0 commit\n0 return 1\n",
        "violation at line 7: view differs at key 8589934592",
        """call at line 2
reply at line 8
agreed at the start: key 8589934592 amount 0
words after line 7: key 8589934592 amount 1
part 0 after line 7: key 8589934592 amount 1
change at line 6: word 3 from 0 to 9, in effect at line 6, key 8589934592 amount 0 to 1
state after line 7: key 8589934592 amount 0""",
    ),
    # Node 1 is in no chain. Node 2 leads back to itself, and its value isn't below 2^32: 2 of what is damaged. Node 0's key isn't
    # either.
    (
        """vyrd 2 tree 3 1
0 call delete 1
0 write 1 1
0 write 4 4294967296
0 write 13 1
0 write 16 4294967296
0 write 3 2
0 write 25 1
0 write 32 4294967296
0 write 27 2
0 commit
0 return 0
""",
        "violation at line 11: view differs at key 8589934592",
        """call at line 2
reply at line 12
agreed at the start: key 8589934592 amount 0
words after line 11: key 8589934592 amount 3
part 0 after line 11: key 8589934592 amount 1
part 2 after line 11: key 8589934592 amount 2
change at line 4: word 4 from 0 to 4294967296, in effect at line 4, key 8589934592 amount 0 to 1
change at line 9: word 32 from 0 to 4294967296, in effect at line 9, key 8589934592 amount 1 to 2
change at line 10: word 27 from 0 to 2, in effect at line 10, key 8589934592 amount 2 to 3
state after line 11: key 8589934592 amount 0""",
    ),
]
REPLIES = [
    # The state before has the insert on line 3, and not the one whose block is open.
    (
        """vyrd 1 multiset 1 3
0 call insert 5
0 commit
0 return 0
1 call insert_pair 5 5
1 open
2 call delete 5
2 commit
2 return 1
""",
        "violation at line 8: reply 1 not allowed",
        "call at line 7\nreply at line 9\nstate before line 8: key 5 amount 0\nallowed reply 0",
    ),
    # Two values that are the same one are one key.
    (
        "vyrd 1 multiset 1 1\n0 call insert_pair 5 5\n0 commit\n0 return 2\n",
        "violation at line 3: reply 2 not allowed",
        """call at line 2
reply at line 4
state before line 3: key 5 amount 0
allowed reply 0
allowed reply 1""",
    ),
    # A key that is there is inserted with the reply 2, or not at all.
    (
        """vyrd 2 tree 1 1
start 1 1
start 4 9
start 8 3
0 call insert 9 4
0 write 8 4
0 commit
0 return 1
""",
        "violation at line 7: reply 1 not allowed",
        "call at line 5\nreply at line 8\nstate before line 7: key 9 amount 4294967299\nallowed reply 0\nallowed reply 2",
    ),
    # Four characters behind four are one too many. 16843009 is 1 + 256 + 256^2 + 256^3: four characters 0.
    (
        """vyrd 2 buffers 2 1
start 0 4
start 8 4
0 call append_from 0 1
0 commit
0 return 1
""",
        "violation at line 5: reply 1 not allowed",
        """call at line 4
reply at line 6
state before line 5: key 0 amount 16843009
state before line 5: key 1 amount 16843009
allowed reply 0""",
    ),
    # Cut has one key, and one reply.
    (
        "vyrd 1 buffers 1 1\n0 call cut 0 3\n0 commit\n0 return 0\n",
        "violation at line 3: reply 0 not allowed",
        "call at line 2\nreply at line 4\nstate before line 3: key 0 amount 0\nallowed reply 1",
    ),
    # The 5 was inserted twice, and deleted once since; the 7 was inserted once.
    (
        """vyrd 1 multiset 1 2
0 call insert 5
0 open
0 write 1 5
0 write 0 2
0 close commit
0 return 1
1 call insert_pair 5 7
1 open
1 write 3 7
1 write 2 2
1 write 5 5
1 write 4 2
1 close commit
1 return 1
0 call delete 5
0 open
0 write 0 0
0 close commit
0 return 1
0 call insert_pair 7 5
0 commit
0 return 2
""",
        "violation at line 22: reply 2 not allowed",
        """call at line 21
reply at line 23
state before line 22: key 7 amount 1
state before line 22: key 5 amount 1
allowed reply 0
allowed reply 1
last step at line 14: key 7 amount 1
last step at line 19: key 5 amount 1""",
    ),
    # The step on line 8 writes the same pair once more, and sets nothing.
    (
        """vyrd 1 cache 1 1
0 call write 0 1 0
0 write 1 1
0 write 0 2
0 commit
0 return 1
0 call write 0 1 0
0 commit
0 return 1
0 call flush 0
0 commit
0 return 0
""",
        "violation at line 11: reply 0 not allowed",
        """call at line 10
reply at line 12
state before line 11: key 0 amount 1
allowed reply 1
last step at line 5: key 0 amount 1""",
    ),
    # A buffer that is appended to itself is one key too.
    (
        """vyrd 1 buffers 1 1
0 call append 0 65
0 write 1 65
0 write 0 1
0 commit
0 return 1
0 call append_from 0 0
0 commit
0 return 0
""",
        "violation at line 8: reply 0 not allowed",
        """call at line 7
reply at line 9
state before line 8: key 0 amount 66
allowed reply 1
last step at line 5: key 0 amount 66""",
    ),
]
OBSERVERS = [
    # Two commits change the answer, and the one between them doesn't. What commits before the call isn't told by itself.
    (
        """vyrd 1 tree 1 3
0 call insert 1 9
0 write 4 1
0 write 8 9
0 write 1 1
0 commit
0 return 1
2 call lookup 1
0 call insert 1 7
0 write 8 7
0 commit
0 return 2
0 call delete 5
0 commit
0 return 0
0 call delete 1
0 write 1 0
0 commit
2 return 5
0 return 1
""",
        "violation at line 19: observer reply 5 in no state",
        "call at line 8\nreply at line 19\nanswer from line 8: 10\nanswer from line 11: 8\nanswer from line 18: 0",
    ),
    (
        "vyrd 2 buffers 1 1\nstart 0 2\nstart 1 65\nstart 2 66\n0 call length 0\n0 return 1\n",
        "violation at line 6: observer reply 1 in no state",
        "call at line 5\nreply at line 6\nanswer from line 5: 2",
    ),
    # The greatest pair of a chunk is 2^64 - 1. Here that is an answer like any other, and not `none`.
    (
        """vyrd 1 cache 1 1
0 call write 0 4294967295 4294967295
0 write 1 4294967295
0 write 2 4294967295
0 write 0 2
0 commit
0 return 1
0 call read 0
0 return 0
""",
        "violation at line 9: observer reply 0 in no state",
        "call at line 8\nreply at line 9\nanswer from line 8: 18446744073709551615",
    ),
]
BROKEN = [
    # Caller 0's block holds the word by its last write to it. The callers' open ones come in the order of the callers.
    (
        """vyrd 1 multiset 1 3
1 call insert 5
1 open
1 write 0 1
1 write 0 2
1 write 2 1
0 call insert 6
0 open
2 call lookup 6
0 write 0 1
""",
        "malformed at line 10: block raced",
        "held by line 5\nopen call at line 7\nopen block at line 8\nopen call at line 2\nopen block at line 3\nopen call at line 9",
    ),
    # Behind the commit on line 5 caller 1 writes the word twice, once in a block that ends.
    (
        """vyrd 2 multiset 1 2
0 call insert 5
0 write 1 5
0 open
0 commit
1 call insert 6
1 write 0 1
1 open
1 write 1 6
1 write 0 2
1 close commit
0 write 0 2
""",
        "malformed at line 12: block raced",
        """passed at line 7: word 0, in effect at line 7
passed at line 10: word 0, in effect at line 11
open call at line 2
open block at line 4
open call at line 6""",
    ),
    # The value is what is wrong. That another caller's block holds the word isn't told.
    (
        "vyrd 1 multiset 1 2\n0 call insert 5\n0 open\n0 write 0 1\n1 call insert 6\n1 write 0 9223372036854775808\n",
        "malformed at line 6: value out of range",
        "open call at line 2\nopen block at line 3\nopen call at line 5",
    ),
    # A write without a call, and one that has a leading zero and is no entry.
    ("vyrd 1 multiset 1 2\n0 call insert 5\n1 write 0 1\n", "malformed at line 3: no call open", "open call at line 2"),
    (
        "vyrd 1 multiset 1 2\n0 call insert 5\n0 open\n0 write 0 1\n1 call insert 5\n1 write 0 01\n",
        "malformed at line 6: bad entry",
        "open call at line 2\nopen block at line 3\nopen call at line 5",
    ),
    # A block that ended is no longer open, nor is an execution that returned.
    (
        "vyrd 1 multiset 1 1\n0 call lookup 5\n0 open\n0 close\n0 return 0\n0 call delete 5\n0 commit\n0 commit\n",
        "malformed at line 8: second commit",
        "open call at line 6",
    ),
    ("vyrd 1 multiset 1 2\n1 call lookup 5\n0 call lookup 5\nend\n", "malformed at line 4: call not returned",
        "open call at line 3\nopen call at line 2"),
    ("vyrd 1 multiset 1 1\n0 call lookup 5", "malformed at line 2: no line feed", ""),
    ("vyrd 1 multiset 1 1\n0 return 5\n", "malformed at line 2: no call open", ""),
    ("vyrd 2 multiset 1 1\nstart 0 0\n0 call lookup 5\n", "malformed at line 2: start out of range", ""),
    # What is open further down has nothing to do with the words at the start.
    ("vyrd 2 multiset 2 1\nstart 0 2\nstart 1 5\n0 call lookup 5\n", "malformed at line 2: start stands for no state", ""),
    ("vyrd 4 multiset 1 1\n0 call lookup 5\n", "malformed at line 1: unknown version", ""),
    ("", "malformed at line 1: no end", ""),
]
ACCEPTED = [("vyrd 1 multiset 1 1\nend\n", "accepted: 0 entries, 0 commits, 0 observers", "")]
# Of version 3. Lines are those of the whole text.
OWN_VIEWS = [
    # Part 1 shows 2 of key 9 beside the 3 that part 0 shows.
    (
        """vyrd 3 own 4 2
part 2
  shows w1 w0
method put k
  allow (reply == 1)
    set [k] 3
log
# It begins with a 3 of key 9.
start 0 3
start 1 9
0 call put 9
# Main.java:61
0 write 2 2
0 write 3 9
0 commit
0 return 1
""",
        "violation at line 15: view differs at key 9",
        """call at line 11
reply at line 16
agreed at the start: key 9 amount 3
words after line 15: key 9 amount 5
part 0 after line 15: key 9 amount 3
part 1 after line 15: key 9 amount 2
change at line 14: word 3 from 0 to 9, in effect at line 14, key 9 amount 3 to 5
state after line 15: key 9 amount 3""",
    ),
    # The state has nothing left after the commit, and the words still show the 6 of word 1.
    (
        """vyrd 3 own 2 1
part 1
  shows part w0
method empty
  allow (reply == count)
    clear
log
start 0 5
start 1 6
0 call empty
0 write 0 0
0 commit
0 return 2
""",
        "violation at line 12: view differs at key 1",
        """call at line 10
reply at line 13
agreed at the start: key 1 amount 6
words after line 12: key 1 amount 6
part 1 after line 12: key 1 amount 6
state after line 12: key 1 amount 0""",
    ),
]
OWN_REPLIES = [
    # A state without anything, and one reply.
    (
        "vyrd 3 own 0 1\nmethod m\n  allow (reply == 1)\nlog\n0 call m\n0 commit\n0 return 2\n",
        "violation at line 6: reply 2 not allowed",
        "call at line 5\nreply at line 7\nallowed reply 1",
    ),
    # The choice reads {7} and [107], and not {8}. What counts has the values 8 of the first `let`; 7, 30, 7, 100, 107, 0, 0 of the
    # second; 30, 7, 10, 0, 30, 8, 1, 9, 0, 0 of the first case; and of the second one, among others, `none`, which it allows.
    (
        """vyrd 3 own 0 2
let far 100
register turn 4
register held 0
list waiting
  holds 8
  holds 9
list spare
hidden 7 30
hidden 107 1
method put k
  allow (reply == 1)
    set [k] (k + 3)
    set held none
    append waiting none
method take k
  let front (first waiting)
  let there (if {k} then [(k + far)] else {front})
  allow ((reply == [k]) or (reply == (front + 1)))
  allow ((reply == 2) or (reply == (last spare)))
log
0 call put 7
0 commit
0 return 1
1 call take 7
1 commit
1 return 30
""",
        "violation at line 26: reply 30 not allowed",
        """call at line 25
reply at line 27
state before line 26: register 0 value 4
state before line 26: register 1 value none
state before line 26: list 0 size 3 first 8 last none
state before line 26: list 1 size 0 first none last none
state before line 26: key 107 amount 0
state before line 26: key 7 amount 10
state before line 26: hidden key 7 amount 30
allowed reply 2
allowed reply 10
allowed reply 9
last step at line 23: register 1 value none
last step at line 23: list 0 append none
last step at line 23: key 7 amount 10""",
    ),
    # What stands in the second case counts too. Numbers are tried as well: the 40 is nothing but a number.
    (
        """vyrd 3 own 0 1
hidden 9 1
method m k
  allow (reply == 40)
  allow ((reply == (k + 5)) and {9})
log
0 call m 3
0 commit
0 return 6
""",
        "violation at line 8: reply 6 not allowed",
        "call at line 7\nreply at line 9\nstate before line 8: hidden key 9 amount 1\nallowed reply 40\nallowed reply 8",
    ),
    # The other branch of a choice. The 6 is what the words show at the start; the call of caller 1 hasn't committed.
    (
        """vyrd 3 own 2 2
part 1
  shows part w0
method swap k v
  let old [k]
  allow (if (v == 0) then (reply == {k}) else (reply == ([k] + {old})))
    set [k] v
log
start 1 6
0 call swap 1 9
1 call swap 1 3
0 write 1 9
0 commit
0 return 7
""",
        "violation at line 13: reply 7 not allowed",
        """call at line 10
reply at line 14
state before line 13: key 1 amount 6
state before line 13: hidden key 6 amount 0
allowed reply 6""",
    ),
    # An amount whose key is an amount: [7] is 0, so {0} is read, and then {4}. The key 2 is that of the refused reply.
    (
        """vyrd 3 own 0 1
hidden 0 4
hidden 4 9
method m
  allow ((reply == ({{[7]}} + 1)) and (not [reply]))
log
0 call m
0 commit
0 return 2
""",
        "violation at line 8: reply 2 not allowed",
        """call at line 7
reply at line 9
state before line 8: key 7 amount 0
state before line 8: key 2 amount 0
state before line 8: hidden key 0 amount 4
state before line 8: hidden key 4 amount 9
allowed reply 10""",
    ),
    # A key is a number even if it is `none`. The answer is no case, so [5] isn't read.
    (
        """vyrd 3 own 0 1
list spare
method take
  answer [5]
  allow ((not [(first spare)]) and (reply == (count + 3)))
log
0 call take
0 commit
0 return 0
""",
        "violation at line 8: reply 0 not allowed",
        """call at line 7
reply at line 9
state before line 8: list 0 size 0 first none last none
state before line 8: key 18446744073709551615 amount 0
allowed reply 3""",
    ),
    # Each kind of effect. [7] is 5 until all is cleared, and [8] was never set: that it is 0 was set by the same step.
    (
        EFFECTS,
        "violation at line 29: reply 9 not allowed",
        """call at line 28
reply at line 30
state before line 29: register 0 value 4
state before line 29: list 0 size 2 first 9 last 7
state before line 29: list 1 size 0 first none last none
state before line 29: key 7 amount 0
state before line 29: key 8 amount 0
state before line 29: hidden key 7 amount 18446744073709551615
allowed reply 0
last step at line 23: register 0 value 4
last step at line 23: list 0 prepend 9
last step at line 26: list 1 clear
last step at line 26: clear
last step at line 26: clear
last step at line 23: hidden key 7 amount 18446744073709551615""",
    ),
    # Nothing is allowed: `none` and one more is `none`.
    (
        "vyrd 3 own 0 1\nlist all\nmethod get\n  allow (reply == ((first all) + 1))\nlog\n0 call get\n0 commit\n0 return 0\n",
        "violation at line 7: reply 0 not allowed",
        "call at line 6\nreply at line 8\nstate before line 7: list 0 size 0 first none last none",
    ),
]
OWN_OBSERVERS = [
    (
        "vyrd 3 own 0 1\nmethod get k\n  answer [k]\nlog\n0 call get 7\n# a note\n0 return 2\n",
        "violation at line 7: observer reply 2 in no state",
        "call at line 5\nreply at line 7\nanswer from line 5: 0",
    ),
    # The list is empty, then it has one element, two, one, and none.
    (
        """vyrd 3 own 0 3
list waiting
method put x
  allow (reply == 1)
    append waiting x
method take
  let any (length waiting)
  answer (if any then none else 0)
  allow (reply == ((first waiting) + 1))
    drop first waiting
log
0 call put 5
1 call take
0 commit
0 return 1
0 call put 6
0 commit
0 return 1
2 call take
2 commit
2 return 6
2 call take
2 commit
1 return 3
2 return 7
""",
        "violation at line 24: observer reply 3 in no state",
        "call at line 13\nreply at line 24\nanswer from line 13: 0\nanswer from line 14: none\nanswer from line 23: 0",
    ),
]
OWN_BROKEN = [
    (
        """vyrd 3 own 2 2
method m
  allow (reply == 1)
log
0 call m
0 open
0 write 1 5
1 call m
1 write 1 6
""",
        "malformed at line 9: block raced",
        "held by line 7\nopen call at line 5\nopen block at line 6\nopen call at line 8",
    ),
    ("vyrd 3 own 2 2\nmethod m\nlog\n", "malformed at line 3: method without a case", ""),
]


CASES = [VIEWS, REPLIES, OBSERVERS, BROKEN, ACCEPTED, OWN_VIEWS, OWN_REPLIES, OWN_OBSERVERS, OWN_BROKEN]


class Lines(unittest.TestCase):
    def assert_lines(self, text, answer, lines):
        with tempfile.TemporaryFile(buffering=0) as file:
            file.write(text.encode())
            self.assertEqual("\n".join(lines_behind(Log(file, "-", answer))), lines, text)

    def test_cases(self):
        for cases in CASES:
            for text, answer, lines in cases:
                with self.subTest(answer=answer):
                    self.assert_lines(text, answer, lines)


# A checker that finds one thing in every log, plays every workload alike, and says what stands in a file for each form.
CHECKER = """case $1 in
    step) printf 'vyrd 1 multiset 1 1\\n0 call lookup 5\\n0 return 0\\nend\\naccepted: and so on\\n'; exit 0 ;;
    check) cat >/dev/null; cat answer; exit "$(cat status)" ;;
    batch) python3 -B batch.py; exit "$(cat status)" ;;
    explain|follow) cat >/dev/null; cat answer $1; exit "$(cat status)" ;;
esac
exit 3"""
BATCH = """import sys
said, count = sys.stdin.buffer.read().removeprefix(b"batch\\n"), 0
while said != b"end\\n":
    size = int(said.split(b"\\n")[0].split()[1])
    said, count = said[len(b"log \\n") + len(str(size)) + size:], count + 1
print("".join(f"log {place}: {open('answer').read()}" for place in range(count)) + f"batch: {count} logs")
"""


class Explained(ScriptTest):
    def setUp(self):
        super().setUp()
        self.file("batch.py", BATCH)
        self.checker = self.program("checker", f"cd '{self.folder}'", CHECKER)

    def explained(self, case, *words, follow="", **others):
        """Runs the script over the log of a case, or with other words, where the program says what the case says."""
        text, answer, lines = case
        self.file("log", text)
        self.file("answer", f"{answer}\n")
        self.file("explain", f"{lines}\n" if lines else "")
        self.file("follow", f"{follow}\n" if follow else "")
        self.file("status", str(["accepted", "violation", "malformed"].index(answer.split()[0].rstrip(":"))))
        return self.run_script("explained", *(words or ["log"]), **{"vyrd": self.checker, **others})

    def test_what_is_compared_is_counted(self):
        said = b"logs: 1 view differs at key\n"
        said += b"lines of explain: 1 agreed at the start: key amount, 1 call at line, 1 reply at line, 1 state after line: key, "
        said += b"1 words after line: key\n"
        said += b"lines of follow: 1 step at line: key amount\n"
        said += b"explained: 1 logs are explained and followed as they have to be, 0 otherwise\n"
        self.assert_ended(self.explained(VIEWS[0], follow="step at line 3: key 5 amount 1"), 0, said, [])

    def test_what_a_state_has_is_counted_by_its_kinds(self):
        said = b"logs: 1 reply not allowed in version 3\n"
        said += b"lines of explain: 3 allowed reply, 1 call at line, 1 last step at line: key amount, "
        said += b"1 last step at line: list append, 1 last step at line: register value, 1 reply at line, "
        said += b"1 state before line: hidden key, 2 state before line: key, 2 state before line: list, "
        said += b"2 state before line: register\n"
        said += b"lines of follow: 1 step at line: key amount, 1 step at line: list append, 1 step at line: register value\n"
        said += b"explained: 1 logs are explained and followed as they have to be, 0 otherwise\n"
        steps = ["key 7 amount 10", "register 1 value none", "list 0 append none"]
        follow = "\n".join(f"step at line 23: {step}" for step in steps)
        self.assert_ended(self.explained(OWN_REPLIES[1], follow=follow), 0, said, [])

    def test_the_first_difference_is_said_whole(self):
        text, answer, lines = REPLIES[0]
        ran = self.explained((text, answer, lines.replace("allowed reply 0", "allowed reply 1")), "log", "log")
        told = f"{answer}\n{lines}\n"
        said = f"log: explain has the status 1, and\n{told.replace('allowed reply 0', 'allowed reply 1')}"
        said += f"wanted: the status 1, and\n{told}of this log:\n{text}logs: \nlines of explain: \nlines of follow: \n"
        said += "explained: 0 logs are explained and followed as they have to be, 1 otherwise\n"
        self.assert_ended(ran, 1, said.encode(), [])

    def test_other_lines_are_differences(self):
        text, answer, lines = REPLIES[0]
        self.assertEqual(self.explained(REPLIES[0]).returncode, 0)
        for others in ("", lines + "\n", lines.upper(), "\n".join(lines.split("\n")[::-1])):
            self.assertEqual(self.explained((text, answer, others)).returncode, 1)
        ran = self.explained(REPLIES[0], follow="step at line 3: key 5 amount 1")
        self.assertEqual(ran.returncode, 1)
        self.assertIn(b"log: follow has the status 1, and\n", ran.stdout)

    def test_another_status_is_a_difference(self):
        for form, place in (("explain", "explain|follow) "), ("follow", "explain|follow) [ $1 = explain ] || ")):
            ends_with_2 = CHECKER.replace("explain|follow) ", f"{place}{{ cat >/dev/null; cat answer $1; exit 2; }}; ")
            self.checker = self.program("checker", f"cd '{self.folder}'", ends_with_2)
            ran = self.explained(REPLIES[0])
            self.assertEqual(ran.returncode, 1)
            self.assertIn(f"log: {form} has the status 2, and\n".encode(), ran.stdout)

    def test_all_logs_that_are_there_and_some_that_are_drawn(self):
        self.explained(ACCEPTED[0])
        with patch.dict(os.environ, {"VYRD": str(self.checker)}):
            logs = [text for _, text in module_of(EXAMPLES / "explained").all_logs(60, 2)]
        kept = len(list((EXAMPLES / "logs").glob("*.log"))) + len(list((EXAMPLES / "workloads").glob("*.work")))
        own = len(list((EXAMPLES.parent / "specifications/logs").glob("*/*.log")))
        self.assertEqual(len(logs), kept + own + 60)
        self.assertTrue(own < len([text for text in logs if text.startswith("vyrd 3 own ")]) < own + 60)

    def test_what_ends_it(self):
        self.assert_ended(self.explained(VIEWS[0], "missing"), 64, b"", ["missing can't be read"])
        self.assert_ended(self.explained(VIEWS[0], "--logs"), 64, b"", ["--logs takes a number"])
        self.assert_ended(self.explained(VIEWS[0], "-x"), 64, b"", ["there is no option -x"])
        self.assert_ended(self.explained(VIEWS[0], vyrd="/missing"), 70, b"", ["can't be run: /missing"])
        without = self.program("without", "exit 3")
        self.assert_ended(self.explained(VIEWS[0], vyrd=without), 70, b"", ["gives no verdicts about a batch, and ends with 3"])
        knows_one = self.program("knows-one", f"cd '{self.folder}'", CHECKER.replace("explain|follow", "explain"))
        self.assert_ended(self.explained(VIEWS[0], vyrd=knows_one), 70, b"", ["doesn't follow logs, and ends with 3"])

    def test_files_of_all_kinds(self):
        bad = ("", "malformed at line 1: bad header", "")
        self.explained(bad)
        for name, content in (("-x", b"x\n"), ("binary", bytes(range(256)) * 9), ("long", b"0" * 1_000_000), ("empty", b"")):
            self.file(name, content)
            ran = self.run_script("explained", "--", name, vyrd=self.checker)
            self.assertEqual((ran.returncode, ran.stderr), (0, b""), name)

    def test_logs_are_drawn_of_all_kinds(self):
        """Spoilt ones are other ones; some have a commit inside a block, and a word that two callers write."""
        script = module_of(EXAMPLES / "explained")
        block = ["vyrd 1 multiset 1 2", "0 open", "1 write 3 5", "0 write 0 2", "0 close commit", "end", ""]
        raced = set()
        for seed in range(40):
            lines = list(block)
            script.raced(random.Random(seed), lines)
            raced.add("\n".join(lines))
        self.assertTrue(all("0 write 3 " in text for text in raced))
        self.assertEqual({"0 commit\n" in text for text in raced}, {True, False})
        self.assertEqual({text[:6] for text in raced}, {"vyrd 1", "vyrd 2"})
        lone = ["vyrd 1 multiset 1 1", "0 open", "0 write 0 2", "0 close", "1 write 3 5", "end"]
        script.raced(random.Random(1), lone)
        self.assertEqual(len(lone), 6)


if __name__ == "__main__":
    unittest.main()
