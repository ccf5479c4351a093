"""What explain says of a log and its answer, and what it refuses to say."""

import subprocess
import time
import unittest

from support import FAULT, FAULT_ANSWER, FAULT_EXPLAINED, LOOK, PROGRAM, TOOLS, ScriptTest

# Nine lines: an insert that commits on the fourth, and a delete that commits on the eighth.
ROUND = """0 call insert {0}
0 write 1 {0}
0 write 0 2
0 commit
0 return 1
0 call delete {0}
0 write 0 0
0 commit
0 return 1
"""
OTHER = "explain: this log isn't the one that the answer is about"


class Explaining(ScriptTest):
    def setUp(self):
        super().setUp()
        self.take_program()

    def assert_explained(self, given, wanted, *words):
        said = self.run_script("explain", *words, given=given)
        self.assertEqual((said.out, said.error, said.status), (wanted, "", 0))

    def test_a_log_with_its_answer_after_it(self):
        self.assert_explained(FAULT + "end\n" + FAULT_ANSWER, FAULT_EXPLAINED)

    def test_a_file_is_judged_and_explained(self):
        self.assert_explained("", FAULT_EXPLAINED, self.write("fault.log", FAULT + "end\n"))

    def test_an_answer_after_the_log_in_a_file_is_no_part_of_it(self):
        text = FAULT + "end\n"
        self.checker(f"cat > given\nexec '{PROGRAM}' \"$@\" < given")
        for behind in ("accepted: 2 entries, 0 commits, 0 observers\n", FAULT_ANSWER, FAULT_ANSWER.strip()):
            path = self.write("fault.log", text + behind)
            self.assert_explained("", FAULT_EXPLAINED, path)
            self.assertEqual((self.folder / "given").read_text(), text)
            self.assertEqual((self.folder / "fault.log").read_text(), text + behind)

    def test_megabytes_behind_an_early_verdict(self):
        self.assert_explained("", FAULT_EXPLAINED, self.write("long.log", FAULT + LOOK * 60_000 + "end\n"))

    def test_an_answer_that_names_no_line_is_all_that_is_said(self):
        for answer in ("accepted: 2 entries, 0 commits, 0 observers\n", "stuck\n", "events spent by caller 3\n"):
            self.assert_explained(FAULT + "end\n" + answer, answer)

    def test_the_last_eight_of_each_list_are_said(self):
        log = "vyrd 1 multiset 1 2\n1 call lookup 5\n" + ROUND.format(5) * 6 + "1 return 7\nend\n"
        # Round k, from 0, begins on line 3 + 9k: its writes that count are on 5 + 9k and 9 + 9k, its commits behind them.
        ends = [(9 * k + 6, "insert", 1, 9 * k + 5, "0 -> 2; shown not at all -> once") for k in range(6)]
        ends += [(9 * k + 10, "delete", 0, 9 * k + 9, "2 -> 0; shown once -> not at all") for k in range(6)]
        ends = sorted(ends)[-8:]
        wanted = ["violation at line 57: observer reply 7 in no state", "", "The call"]
        wanted += ["  caller 1: `lookup 5`, called on line 2, replied 7 on line 57", ""]
        wanted += ["What it may reply: what is right somewhere between its call and its return", "  (5 before these)"]
        wanted += [
            f"  after line {commit}, caller 0, `{method} 5` with reply 1: {right}" for commit, method, right, *_ in ends
        ]
        wanted += ["", "Commits before its call that name 5: none"]
        wanted += ["", "The first commit after its return that names 5: none", ""]
        wanted += ["Writes before its return that changed what the words show at key 5", "  (4 before these)"]
        wanted += [f"  line {line}: caller 0, slot 0 state {change}" for *_, line, change in ends]
        self.assert_explained(log + wanted[0] + "\n", "\n".join(wanted) + "\n")

    def test_a_later_commit_that_never_returned_is_said_to_have_none(self):
        log = FAULT.replace("insert", "lookup").replace("0 commit\n", "") + "0 call insert 5\n0 commit\n"
        said = self.run_script("explain", given=log + "violation at line 3: observer reply 1 in no state\n")
        self.assertIn("names 5\n  line 5: caller 0, `insert 5` which didn't return\n", said.out)

    def test_a_cut_text_behind_the_last_line_feed(self):
        given = "vyrd 1 multiset 1 1\nendmalformed at line 2: no line feed\n"
        reason = "the input ends inside this line: it was cut off, or the last line feed is missing"
        wanted = f"malformed at line 2: no line feed\n\n  line 2: end\n\n  no line feed: {reason}\n"
        self.assert_explained(given, wanted)

    def test_the_calls_that_are_open_where_the_input_ends(self):
        log = "vyrd 1 multiset 2 4\n3 call lookup 5\n2 call delete 6\n2 commit\n0 call insert 5\n"
        log += "1 call lookup 5\n1 return 0\n0 write 1 5\n"
        reason = "the input ends before the line `end`: it was cut off, or the program that wrote it stopped"
        wanted = f"""malformed at line 9: no end

  no end: {reason}

The calls that are open there
  caller 0: `insert 5`, called on line 5; its last entry is line 8: write 1 5 (slot 0 value)
  caller 2: `delete 6`, called on line 3, committed on line 4; its last entry is line 4: commit
  caller 3: `lookup 5`, called on line 2, with nothing after it
"""
        self.assert_explained(log + "malformed at line 9: no end\n", wanted)
        said = self.run_script("explain", given=log + "0 wrimalformed at line 9: no line feed\n")
        self.assertIn("  caller 0: `insert 5`, called on line 5; its last entry is line 8: write 1 5 (slot 0 value)\n", said.out)

    def test_no_bytes_at_all_were_a_log(self):
        reason = "the input ends before the line `end`: it was cut off, or the program that wrote it stopped"
        self.assert_explained("malformed at line 1: no end\n", f"malformed at line 1: no end\n\n  no end: {reason}\n")


class Trees(ScriptTest):
    """A list in the first chain of a tree: node 1 has 10 and node 2 has 20."""

    BEGIN = ["0 call insert 10 0", "0 write 16 10", "0 write 13 1", "0 write 3 1", "0 commit", "0 return 1"]
    BEGIN += ["0 call insert 20 0", "0 write 28 20", "0 write 25 1", "0 write 15 2", "0 commit", "0 return 1"]

    def said_of(self, lines, answer):
        self.take_program()
        said = self.run_script("explain", given="\n".join(["vyrd 1 tree 4 2", *lines, "end", answer, ""]))
        self.assertEqual((said.error, said.status), ("", 0))
        return said.out

    def test_a_write_of_a_call_that_commits_later(self):
        lines = ["1 call delete 10", "1 write 13 0", "0 call insert 30 0", "0 commit", "0 return 2"]
        change = "line 15: caller 1, node 1 count 1 -> 0; shown once, with the value 0 -> not at all"
        for rest, which in ((["1 commit", "1 return 1"], "commits on line 19"), ([], "never commits")):
            said = self.said_of(self.BEGIN + lines + rest, "violation at line 17: reply 2 not allowed")
            self.assertNotIn("node 1 count", said)
            allowed = [line.replace("return 2", "return 1") for line in lines]
            said = self.said_of(self.BEGIN + allowed + rest, "violation at line 17: view differs at key 10")
            self.assertIn(f"  {change}, in `delete 10`, which {which}\n", said)

    def test_the_nodes_that_show_a_key(self):
        lines = ["1 call insert 20 0", "1 write 18 20", "1 write 13 2", "1 write 17 20", "1 commit", "1 return 2"]
        said = self.said_of(self.BEGIN + lines, "violation at line 18: view differs at key 20")
        wanted = """
Parts of the words that show key 20
  node 1: once, with the value 0
  node 2: once, with the value 0

Writes since line 12 that changed what the words show at key 20
"""
        self.assertIn(wanted, said)
        self.assertIn("  line 17: caller 1, node 1 key 1 0 -> 20; shown once, with the value 0 -> 2 times\n", said)


class Refusing(ScriptTest):
    def setUp(self):
        super().setUp()
        self.take_program()

    def test_a_log_without_an_answer(self):
        for given in ("", FAULT, FAULT + "end\n", b"\x00" * 1000, "\n" * 100_000):
            said = self.run_script("explain", given=given)
            self.assert_refused(said, "explain: there is no answer after the log; --help says where it has to stand")

    def test_a_line_that_is_not_in_the_log_or_is_no_commit_and_no_return(self):
        for answer in (
            "malformed at line 99999999999: no end",
            "malformed at line 7: no end",
            "malformed at line 6: call not returned",
            "malformed at line 0: no end",
            "violation at line 0: reply 1 not allowed",
            "violation at line 1: reply 1 not allowed",
            "violation at line 2: view differs at key 5",
            "violation at line 5: view differs at key 5",
            "violation at line 99999999999999999999: view differs at key 5",
        ):
            self.assert_refused(self.run_script("explain", given=FAULT + f"end\n{answer}\n"), OTHER)

    def test_a_reply_or_a_kind_of_fault_that_the_line_does_not_have(self):
        for answer in (
            "violation at line 3: reply 2 not allowed",
            "violation at line 4: reply 1 not allowed",
            "violation at line 4: view differs at key 5",
            "violation at line 3: observer reply 1 in no state",
            "violation at line 4: observer reply 1 in no state",
        ):
            self.assert_refused(self.run_script("explain", given=FAULT + f"end\n{answer}\n"), OTHER)

    def test_calls_that_the_subject_does_not_have(self):
        for subject, call in (
            ("multiset", "insert"),
            ("multiset", "insert 5 6"),
            ("multiset", "flush 5"),
            ("multiset", "insert 99999999999"),
            ("cache", "write 1"),
            ("cache", "write 1 2 3"),
            ("tree", "insert 5"),
            ("buffers", "append 0"),
            ("buffers", "append_from 0 1"),
            ("buffers", "append 0 255"),
        ):
            log = f"vyrd 1 {subject} 1 1\n0 call {call}\n0 commit\n0 return 1\nend\n"
            for fault in ("reply 1 not allowed", "view differs at key 1"):
                self.assert_refused(self.run_script("explain", given=f"{log}violation at line 3: {fault}\n"), OTHER)

    def test_a_key_that_the_structure_does_not_have(self):
        for subject, call in (("cache", "flush 0"), ("buffers", "cut 0 1")):
            log = f"vyrd 1 {subject} 1 1\n0 call {call}\n0 commit\n0 return 1\nend\nviolation at line 3: view differs at key 2\n"
            self.assert_refused(self.run_script("explain", given=log), OTHER)

    def test_a_header_with_no_such_size_or_no_header_at_all(self):
        for header in ("vyrd 1 multiset 99999999 1", "vyrd 1 multiset 0 1", "vyrd 3 multiset 1 1", "x", "vyrd 1 queue 1 1"):
            log = FAULT.replace("vyrd 1 multiset 1 1", header)
            self.assert_refused(self.run_script("explain", given=log + "end\n" + FAULT_ANSWER), OTHER)

    def test_another_status_of_the_checker_is_passed_on(self):
        path = self.write("a.log", FAULT + "end\n")
        for status, ends in ((6, 6), (5, 5), (70, 70), (0, 70), (1, 70), (2, 70)):
            self.checker(f"exit {status}")
            said = self.run_script("explain", path)
            self.assert_refused(said, f"explain: the checker ended with status {status} and gave no verdict", ends)

    def test_a_checker_that_is_not_there_or_no_program(self):
        path = self.write("a.log", FAULT + "end\n")
        self.environment["VYRD"] = str(self.folder / "no_checker")
        wanted = f"explain: the checker {self.folder}/no_checker can't be run: there is no such program"
        self.assert_refused(self.run_script("explain", path), wanted)
        self.write("no_checker", "")
        self.assert_refused(self.run_script("explain", path), wanted)

    def test_a_checker_that_says_what_is_not_known(self):
        self.checker_says_of(1, explain=FAULT_ANSWER + "lines of another kind\n")
        wanted = "explain: the checker says under explain what isn't known here: lines of another kind"
        self.assert_refused(self.run_script("explain", given=FAULT + "end\n" + FAULT_ANSWER), wanted, 70)

    def test_a_checker_that_explains_nothing_or_lines_that_are_not_there(self):
        given = FAULT + "end\n" + FAULT_ANSWER
        self.checker_says_of(1, explain=FAULT_ANSWER, follow=FAULT_ANSWER)
        self.assert_refused(self.run_script("explain", given=given), "explain: the checker explains nothing of its verdict", 70)
        lines = "call at line 2\nreply at line 4\nagreed at the start: key 5 amount 0\n"
        for line in (1, 9):
            change = f"change at line {line}: word 1 from 0 to 5, in effect at line 3, key 5 amount 0 to 1\n"
            self.checker_says_of(1, explain=FAULT_ANSWER + lines + change, follow=FAULT_ANSWER)
            self.assert_refused(self.run_script("explain", given=given), OTHER)

    def test_a_log_with_more_lines_than_explain_takes(self):
        self.checker_says_of(2, explain="malformed at line 16777217: too many lines\n")
        wanted = "explain: explain takes no log of more than 16,777,216 lines"
        self.assert_refused(self.run_script("explain", given=FAULT + "end\n" + FAULT_ANSWER), wanted)

    def test_a_checker_that_says_more_than_a_line(self):
        self.checker("yes | head -c 3000000\nexit 1")
        said = self.run_script("explain", self.write("a.log", FAULT + "end\n"))
        self.assert_refused(said, "explain: the checker ended with status 1 and gave no verdict", 70)


class Hostile(ScriptTest):
    def test_control_bytes_do_nothing_to_the_terminal(self):
        log = b"vyrd 1 multiset 1 1\n0 open\n0 call \x1b[2J\x9b 5\n\x00\xff\x1b]\nend\n"
        for answer, behind, shown in (
            ("malformed at line 4: bad entry", "", r"line 4: \x00\xff\x1b]"),
            ("malformed at line 5: call not returned", "open call at line 3\n", r"caller 0: `\x1b[2J\x9b 5`, called on line 3"),
            ("malformed at line 3: no call open", "", r"line 3: 0 call \x1b[2J\x9b 5"),
        ):
            self.checker_says_of(2, explain=f"{answer}\n{behind}")
            said = self.run_script("explain", given=log + answer.encode() + b"\n")
            self.assertEqual((said.error, said.status), ("", 0))
            self.assertIn(shown, said.out)
            self.assertTrue(said.out.replace("\n", "").isprintable() and said.out.isascii())

    def test_numbers_of_thousands_of_digits(self):
        self.checker_says_of(2, explain="malformed at line 2: bad entry\n")
        for line in ("0 return " + "9" * 5000, "9" * 5009, "vyrd 1 " + "9" * 5002):
            said = self.run_script("explain", given=f"vyrd 1 multiset 1 1\n{line}\nend\nmalformed at line 2: bad entry\n")
            self.assertEqual((said.error, said.status), ("", 0))
            self.assertEqual(said.out.splitlines()[2], f"  line 2: {line[:256]} .. (5009 bytes)")

    def assert_bounded(self, log, explain, follow):
        """Explains this in a minute and 200 MB, by what a checker says of it, and gives what was said."""
        path, begun = self.write("long.log", log), time.monotonic()
        self.checker_says_of(1, check=explain.partition("\n")[0] + "\n", explain=explain, follow=follow)
        limited = f"ulimit -v 200000; exec '{TOOLS / 'explain'}' '{path}'"
        ran = subprocess.run(["bash", "-c", limited], env=self.environment, capture_output=True, text=True, check=False)
        self.assertEqual((ran.stderr, ran.returncode), ("", 0))
        self.assertLess(time.monotonic() - begun, 60)
        return ran.stdout

    def rounds(self, count, key, behind=0):
        """What `follow` says of so many rounds, the first of which begins on line 2 and so many lines further."""
        for begin in range(2 + behind, 2 + behind + 9 * count, 9):
            line, before = begin + 1, key if begin > 2 + behind else 0
            yield f"write at line {line}: word 1 from {before} to {key}, in effect at line {line}"
            line, shown = begin + 2, f"key {key} amount"
            yield f"change at line {line}: word 0 from 0 to 2, in effect at line {line}, {shown} 0 to 1"
            yield f"step at line {begin + 3}: {shown} 1"
            line = begin + 6
            yield f"change at line {line}: word 0 from 2 to 0, in effect at line {line}, {shown} 1 to 0"
            yield f"step at line {begin + 7}: {shown} 0"

    def test_90000_lines_before_a_fault_at_the_greatest_size(self):
        last = 9 * 10_000  # the line of the last commit before
        log = "vyrd 1 multiset 1024 1\n" + ROUND.format(6) * 10_000 + FAULT.partition("\n")[2] + "end\n"
        answer = f"violation at line {last + 3}: view differs at key 5"
        lines = [answer, f"call at line {last + 2}", f"reply at line {last + 4}", f"agreed at line {last}: key 5 amount 0"]
        lines += [f"words after line {last + 3}: key 5 amount 0", f"state after line {last + 3}: key 5 amount 1"]
        said = self.assert_bounded(log, "\n".join([*lines, ""]), "\n".join([answer, *self.rounds(10_000, 6), ""]))
        self.assertIn(f"  on line {last}, at the commit before, both views show it not at all\n", said)
        self.assertIn(f"Writes since line {last} that changed what the words show at key 5: none\n", said)

    def test_a_lookup_over_90000_lines_at_the_greatest_size(self):
        log = "vyrd 1 multiset 1024 2\n1 call lookup 5\n" + ROUND.format(5) * 10_000 + "1 return 7\nend\n"
        answer = "violation at line 90003: observer reply 7 in no state"
        lines = [answer, "call at line 2", "reply at line 90003", "answer from line 2: 0"]
        lines += [f"answer from line {9 * k + more}: {right}" for k in range(10_000) for more, right in ((6, 1), (10, 0))]
        said = self.assert_bounded(log, "\n".join([*lines, ""]), "\n".join([answer, *self.rounds(10_000, 5, 1), ""]))
        self.assertIn("  (19993 before these)\n  after line 89970, caller 0, `insert 5` with reply 1: 1\n", said)
        self.assertIn("  (19992 before these)\n  line 89969: caller 0, slot 0 state 0 -> 2; shown not at all -> once\n", said)

    def test_a_slow_pipe_is_read_to_its_end(self):
        self.take_program()
        self.write("run", FAULT + "end\n" + FAULT_ANSWER)
        writer = "(head -c 30 run; sleep 0.3; tail -c +31 run)"
        command = ["sh", "-c", f"{writer} | '{TOOLS / 'explain'}'"]
        ran = subprocess.run(command, cwd=self.folder, env=self.environment, capture_output=True, text=True, check=False)
        self.assertEqual((ran.stdout, ran.returncode), (FAULT_EXPLAINED, 0))


if __name__ == "__main__":
    unittest.main()
