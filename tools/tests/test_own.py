"""What lint, explain, lanes, shrink and hunt say of logs of version 3, by the specification that stands in front."""

import subprocess
import unittest

from support import QUEUE, QUEUE_RUN, TOOLS, ScriptTest

LOG = QUEUE + QUEUE_RUN  # of 27 lines; line 16 is `log`


class Lint(ScriptTest):
    def assert_said(self, log, *lines):
        said = self.run_script("lint", given=log)
        self.assertEqual((said.out.splitlines(), said.error, said.status), ([*lines], "", 1))

    def test_a_right_log_with_notes(self):
        said = self.run_script("lint", given=LOG)
        self.assertEqual((said.out, said.error, said.status), ("nothing wrong with the spelling\n", "", 0))

    def test_an_unknown_name_and_the_nearest_one(self):
        wanted = "line 11: unknown name at column 20: there is no list `waitng`; `  let front (first waiting)` is meant?"
        self.assert_said(LOG.replace("(first waiting)", "(first waitng)"), wanted)

    def test_brackets_and_spaces_that_are_missing(self):
        why = "line 7: bad specification line at column {}: {}, and here is `{}`; `  allow (reply == 1)` is meant?"
        for spelled, *told in (
            ("reply == 1", 14, "the end of the line is wanted", " == 1"),
            ("(reply==1)", 15, "an operation between two spaces is wanted", "==1)"),
            ("(reply == 1))", 21, "the end of the line is wanted", ")"),
        ):
            self.assert_said(LOG.replace("allow (reply == 1)", f"allow {spelled}"), why.format(*told))
        self.assert_said(
            LOG.replace("allow (reply == 1)", "allow (reply == 1"),
            "line 7: bad specification line at column 20: `)` is wanted, and the line ends here; `  allow (reply == 1)` is meant?",
        )

    def test_one_mistake_is_said_once_and_others_after_it_too(self):
        log = LOG.replace("list waiting", "list Waiting").replace("drop first", "drop frist").replace("return 6", "return x")
        self.assert_said(
            log,
            "line 5: bad specification line at column 6: a name has small letters, digits and `_`, and begins with a letter:"
            " `Waiting` is none; `list waiting` is meant?",
            "line 14: bad specification line at column 5: a line begins with `  let`, `  answer`, `  allow`,"
            " a change behind four spaces, `method` or `log`; `    drop first waiting` is meant?",
            "line 26: the reply `x` is no decimal number",
        )

    def test_names_that_are_taken_and_lines_out_of_place(self):
        taken = LOG.replace("enqueue x\n", "enqueue waiting\n").replace("waiting x", "waiting 1").replace("[x]", "[1]")
        known = "line 6: name taken at column 16: `waiting` is the list on line 5"
        self.assert_said(taken, known, "line 17: `enqueue` has 0 arguments; 1 are here")
        late = "line 10: line out of place at column 10: registers stand before the methods"
        self.assert_said(LOG.replace("method dequeue", "register r 0\nmethod dequeue"), late)

    def test_the_line_log_that_is_missing(self):
        missing = "the line `log` is missing above it: here the specification ends, and what is logged begins"
        self.assert_said(LOG.replace("log\n", ""), f"line 16: bad specification line at column 1: {missing}")

    def test_carriage_returns(self):
        """Each line that says something ends with one: the header, the specification's lines, and those of the log."""
        why = "it ends with a carriage return: lines end with a line feed alone"
        self.assert_said(
            "vyrd 3 own 0 1\r\n# a get\r\nmethod get\r\n  answer 0\r\nlog\r\n0 call get\r\nend\n",
            f"line 1: {why}",
            f"line 3: bad specification line at column 11: {why}; `method get` is meant?",
            f"line 4: bad specification line at column 11: {why}; `  answer 0` is meant?",
            f"line 5: bad specification line at column 1: {why}; `log` is meant?",
            f"line 6: {why}",
        )

    def test_words_that_no_parts_fill(self):
        why = "line 17: start stands for no state: the header has 7 words, and parts of 2 words don't fill them"
        self.assert_said(LOG.replace("own 8 2", "own 7 2"), why)

    def test_entries_by_the_specification(self):
        log = LOG.replace("call enqueue 5", "call enqeue 5").replace("1 call dequeue", "1 call dequeue 4")
        self.assert_said(
            log.replace("return 6", "return 18446744073709551615"),
            "line 17: the specification has no method `enqeue`: it has enqueue, dequeue; `enqueue` is meant?",
            "line 22: `dequeue` has 0 arguments; 1 are here",
            "line 26: the reply 18446744073709551615 is above 18,446,744,073,709,551,614",
        )

    def test_headers_and_ends(self):
        self.assert_said(LOG.replace("own 8 2", "own 65537 257"), "line 1: WORDS is 65537; it is from 0 to 65,536",
            "line 1: CALLERS is 257; it is from 1 to 256")
        five = "line 1: a header has five fields, `vyrd VERSION SUBJECT SIZE CALLERS`, and this has 4"
        self.assert_said(LOG.replace("own 8 2", "own 8"), five)
        self.assert_said("vyrd 2 own 8 2\nend\n", "line 1: the subject own is of version 3")
        self.assert_said(QUEUE, "line 17: the log ends without the line `end`")
        cut = "line 9: the log ends in its specification, without the lines `log` and `end`"
        self.assert_said("".join(QUEUE.splitlines(keepends=True)[:8]), cut)

    def test_bytes_that_are_no_specification(self):
        said = self.run_script("lint", given=b"vyrd 3 own 8 2\n" + bytes(range(256)) * 4000)
        self.assertEqual((said.error, said.status), ("", 1))
        self.assertTrue(said.out.replace("\n", "").isprintable() and said.out.isascii())


class Explain(ScriptTest):
    def setUp(self):
        super().setUp()
        self.take_program()

    def explained(self, log, answer):
        """What is said, without the first line, which is the answer."""
        said = self.run_script("explain", given=f"{log}{answer}\n")
        self.assertEqual((said.error, said.status), ("", 0))
        self.assertTrue(said.out.startswith(answer + "\n"))
        return said.out.removeprefix(answer + "\n")

    def test_a_reply_that_no_case_allows(self):
        wanted = """
The call
  caller 1: `dequeue`, called on line 22, committed on line 25, replied 7 on line 26

Notes near it
  line 23: # Main.java:61

The state before line 25
  list waiting: 1 element, first 5, last 5

`dequeue` in the specification
  line 11: let front (first waiting)
  line 12: answer (if ((length waiting) == 0) then 0 else none)
  line 13: allow (((length waiting) > 0) and (reply == (front + 1)))
  Allowed would be 6.

The last steps before it that changed what is there
  line 20: caller 0, `enqueue 5` with reply 1: append waiting 5
"""
        log = LOG.replace("return 6", "return 7")
        self.assertEqual(self.explained(log, "violation at line 25: reply 7 not allowed"), wanted)

    def test_registers_amounts_and_steps_by_their_names(self):
        front = "vyrd 3 own 0 1\nregister r 0\nlist q\nmethod put x\n  allow (reply == 1)\n    set r x\n    set {x} 2\n"
        front += "    set [x] 3\n    clear\nmethod get x\n  allow (reply == (([x] + {x}) + r))\nlog\n"
        run = "0 call put 4\n0 commit\n0 return 1\n0 call get 4\n0 commit\n0 return 5\nend\n"
        said = self.explained(front + run, "violation at line 17: reply 5 not allowed")
        state = "\nThe state before line 17\n  register r = 4\n  list q: empty\n  [4] = 0\n  {4} = 2\n"
        steps = "".join(f"  line 14: caller 0, `put 4` with reply 1: {done}\n" for done in ("set r 4", "clear", "set {4} 2"))
        self.assertIn(state, said)
        self.assertIn("  Allowed would be 6.\n", said)
        self.assertIn(f"\nThe last steps before it that changed what is there\n{steps}", said)

    def test_views_that_differ(self):
        wanted = """
The call
  caller 1: `dequeue`, called on line 22, committed on line 25, replied 6 on line 26

Notes near it
  line 23: # Main.java:61

What it does by the specification
  drop first waiting
  set [5] 0

Key 5
  on line 20, at the commit before, both views show 1
  this call makes that 0; the words show 1

Parts that give key 5
  part 0 gives 1
    word 0 (w0) = 1, written on line 19 by caller 0
    word 1 (w1) = 5, written on line 18 by caller 0

Writes since line 20 that changed what the words show at key 5: none
  So a write is missing or changed nothing, or the commit stands at the wrong place.

Writes from its call on to the parts that it wrote itself
  line 24: caller 1, word 2 (w0 of part 1) 0 -> 0
"""
        log = LOG.replace("write 0 0", "write 2 0")
        self.assertEqual(self.explained(log, "violation at line 25: view differs at key 5"), wanted)

    def test_an_execution_without_a_commit(self):
        run = """0 call dequeue
1 call enqueue 8
1 write 1 8
1 write 0 1
1 commit
1 return 1
0 return 9
end
"""
        wanted = """
The call
  caller 0: `dequeue`, called on line 17, replied 9 on line 23

What it may reply: what is right somewhere between its call and its return
  from its call on: 0
  after line 21, caller 1, `enqueue 8` with reply 1: none

`dequeue` in the specification
  line 11: let front (first waiting)
  line 12: answer (if ((length waiting) == 0) then 0 else none)
"""
        self.assertEqual(self.explained(QUEUE + run, "violation at line 23: observer reply 9 in no state"), wanted)

    def test_rules_that_are_broken(self):
        bad = LOG.replace("(first waiting)", "(first waitng)")
        wanted = "\n  line 11:   let front (first waitng)\n\n"
        wanted += "  unknown name: nothing has that name here; tools/lint says what may be meant\n"
        self.assertEqual(self.explained(bad, "malformed at line 11: unknown name"), wanted)
        said = self.explained(LOG.replace("own 8 2", "own 7 2"), "malformed at line 17: start stands for no state")
        self.assertIn("the words aren't a whole number of parts, or show too much of a key\n", said)
        raced = "0 call enqueue 5\n0 open\n0 write 3 5\n# b.c:7\n1 call dequeue\n1 write 3 1\nend\n"
        said = self.explained(QUEUE + raced, "malformed at line 22: block raced")
        self.assertIn("  caller 0 wrote that word, word 3 (w1 of part 1), on line 19, in a block that is still open\n", said)
        self.assertIn("\nNotes near it\n  line 20: # b.c:7\n", said)

    def test_answers_of_other_logs_explain_nothing(self):
        other = "explain: this log isn't the one that the answer is about"
        for answer in (
            "violation at line 25: reply 6 not allowed",  # it is allowed
            "violation at line 13: reply 6 not allowed",
            "violation at line 26: observer reply 6 in no state",
            "violation at line 25: view differs at key 5",  # both show none
        ):
            self.assert_refused(self.run_script("explain", given=f"{LOG}{answer}\n"), other)


class Lanes(ScriptTest):
    def test_the_specification_stands_above_the_columns_and_notes_in_none(self):
        said = self.run_script("lanes", given=LOG + "violation at line 25: reply 6 not allowed\n")
        lines = said.out.splitlines()
        self.assertEqual((said.error, said.status, lines[0]), ("", 0, "    1  vyrd 3 own 8 2"))
        self.assertEqual(lines[14:20], [
            "   15      set [front] ([front] - 1)",
            "   16  log",
            "       caller 0       caller 1",
            "   17  call enqueue 5",
            "   18  write 1 5",
            "   19  write 0 1",
        ])
        self.assertEqual(lines[22:26], [
            "   22                 call dequeue",
            "   23  # Main.java:61",
            "   24                 write 0 0",
            "   25                 commit           <-- violation at line 25: reply 6 not allowed",
        ])

    def test_a_line_of_the_specification_has_the_arrow(self):
        bad = LOG.replace("(first waiting)", "(first waitng)")
        said = self.run_script("lanes", "--around", "0", given=bad + "malformed at line 11: unknown name\n")
        self.assertEqual(said.out, "   11    let front (first waitng)  <-- malformed at line 11: unknown name\n")


class Others(ScriptTest):
    """A checker that names the last return of caller 1, wherever that stands, is enough here."""

    CHECKER = """text=$(cat)
line=$(printf '%s\\n' "$text" | grep -n ' return 9$' | cut -d: -f1)
case $text in
    *"list waiting"*"
log
"*) ;;
    *) echo 'malformed at line 1: bad header'; exit 2 ;;
esac
if [ -n "$line" ]; then echo "violation at line $line: observer reply 9 in no state"; exit 1; fi
echo 'accepted: 1 entries, 0 commits, 0 observers'"""

    def test_shrink_keeps_the_specification_and_lets_notes_go(self):
        self.checker(self.CHECKER)
        given = LOG.replace("end\n", "1 call dequeue\n# a note\n1 return 9\n0 call dequeue\n0 return 0\nend\n")
        said = self.run_script("shrink", given=given)
        small = QUEUE.replace("own 8 2", "own 8 1") + "0 call dequeue\n0 return 9\nend\n"
        self.assertEqual((said.out, said.status), (small, 0))

    def test_shrink_keeps_a_specification_up_to_its_fault(self):
        self.checker("cat > /dev/null\necho 'malformed at line 11: unknown name'\nexit 2")
        bad = LOG.replace("(first waiting)", "(first waitng)")
        said = self.run_script("shrink", given=bad)
        self.assertEqual(said.out, "".join(bad.splitlines(keepends=True)[:11]))

    def test_hunt_prints_specification_and_notes_as_they_are(self):
        self.checker(self.CHECKER)
        log = LOG.replace("end\n", "1 call dequeue\n1 return 9\nend\n")
        path = self.write("run.log", log)
        said = self.run_script("hunt", "--times", "1", "--", "cat", path)
        self.assertEqual((said.out, said.status), (log + "violation at line 28: observer reply 9 in no state\n", 0))

    def test_a_slow_pipe_and_a_name_with_a_minus(self):
        self.write("-q.log", LOG)
        for name in ("lint", "lanes"):
            script = TOOLS / name
            slow = f"(head -c 300 ./-q.log; sleep 0.3; tail -c +301 ./-q.log) | '{script}'"
            ran = subprocess.run(["sh", "-c", slow], cwd=self.folder, capture_output=True, text=True, check=False)
            self.assertEqual((ran.stdout, ran.returncode), (self.run_script(name, given=LOG).out, 0))
        self.assertEqual(self.run_script("lint", "--", "-q.log").status, 0)


if __name__ == "__main__":
    unittest.main()
