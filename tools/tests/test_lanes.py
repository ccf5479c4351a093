"""What lanes draws: the columns, the bars and the arrow, and what it doesn't draw."""

import subprocess
import time
import unittest
from xml.dom import minidom

from support import FAULT, FAULT_ANSWER, LOOK, QUEUE, TOOLS, ScriptTest

RUN = """vyrd 1 multiset 1 2
0 call insert 5
1 call lookup 5
0 commit
1 return 1
0 return 1
end
"""
# A column is 14 wide. So 15 spaces are behind the bar on line 4: 13 up to its column's end, and two before the arrow.
RUN_ANSWER = "violation at line 4: view differs at key 5\n"
RUN_DRAWN = """       caller 0      caller 1
    1  vyrd 1 multiset 1 2
    2  call insert 5
    3  |             call lookup 5
    4  commit        |               <-- violation at line 4: view differs at key 5
    5  |             return 1
    6  return 1
    7  end
"""
OTHER = "lanes: this log isn't the one that the answer is about"


class Drawing(ScriptTest):
    def assert_drawn(self, given, wanted, *words):
        said = self.run_script("lanes", *words, given=given)
        self.assertEqual((said.out, said.error, said.status), (wanted, "", 0))

    def test_a_column_for_each_caller_and_an_arrow(self):
        self.assert_drawn(RUN + RUN_ANSWER, RUN_DRAWN)

    def test_a_file_is_judged_and_drawn(self):
        self.checker_says(RUN_ANSWER, 1)
        self.assert_drawn("", RUN_DRAWN, self.write("run.log", RUN))
        self.assert_drawn("", RUN_DRAWN, self.write("run.log", RUN + RUN_ANSWER))

    def test_a_log_without_an_answer_is_drawn_without_an_arrow(self):
        bare = RUN_DRAWN.replace("|               <-- " + RUN_ANSWER, "|\n")
        self.assert_drawn(RUN, bare)

    def test_an_answer_without_a_line_stands_below(self):
        accepted = "accepted: 0 entries, 0 commits, 0 observers\n"
        self.assert_drawn("vyrd 1 multiset 1 1\nend\n" + accepted, "    1  vyrd 1 multiset 1 1\n    2  end\n" + accepted)

    def test_an_input_that_ended_has_a_row_of_its_own(self):
        answer = "malformed at line 2: no end\n"
        drawn = "    1  vyrd 1 multiset 1 1\n    2  (the input has ended)  <-- malformed at line 2: no end\n"
        self.assert_drawn("vyrd 1 multiset 1 1\n" + answer, drawn)

    def test_no_bytes_at_all(self):
        self.assert_drawn("", "")
        self.assert_drawn("malformed at line 1: no end\n", "    1  (the input has ended)  <-- malformed at line 1: no end\n")

    def test_an_answer_right_behind_the_last_byte_is_found(self):
        drawn = "    1  vyrd 1 multiset 1 1\n    2  end  <-- malformed at line 2: no line feed\n"
        self.assert_drawn("vyrd 1 multiset 1 1\nendmalformed at line 2: no line feed\n", drawn)

    def test_only_the_lines_around_the_one_that_is_named(self):
        around = RUN_DRAWN.splitlines(keepends=True)
        self.assert_drawn(RUN + RUN_ANSWER, around[0] + "".join(around[3:6]), "--around", "1")
        self.assert_drawn(RUN + RUN_ANSWER, around[0] + around[4], "--around", "0")
        self.assert_drawn(RUN + RUN_ANSWER, RUN_DRAWN, "--around", "999999999")

    def test_around_draws_no_line_where_none_is_named(self):
        accepted = "accepted: 0 entries, 0 commits, 0 observers\n"
        self.assert_drawn("vyrd 1 multiset 1 1\nend\n" + accepted, accepted, "--around", "3")

    def test_words_by_their_names(self):
        for subject, write, name in (
            ("multiset", "write 5 7", "slot 2 value 7"),
            ("cache", "write 5 7", "chunk 1 state 7"),
            ("tree", "write 15 7", "node 1 right 7"),
            ("buffers", "write 8 7", "buffer 1 count 7"),
        ):
            log = f"vyrd 1 {subject} 2 1\n0 call x 1\n0 {write}\n0 commit\n"
            drawn = f"       caller 0\n    1  vyrd 1 {subject} 2 1\n    2  call x 1\n    3  {{}}\n    4  commit\n"
            self.assert_drawn(log, drawn.format(name), "--names")
            self.assert_drawn(log, drawn.format(write))
        own = QUEUE.replace("log\n", "log\n0 call enqueue 5\n0 write 3 5\n")
        said = self.run_script("lanes", "--names", given=own)
        self.assertIn("\n   18  word 3 (w1 of part 1) 5\n", said.out)

    def test_names_widen_the_columns_and_are_not_there_without_a_sound_header(self):
        log = "vyrd 1 buffers 2 2\n0 call append 0 65\n1 call length 0\n0 write 1 65\n"
        drawn = "       caller 0                caller 1\n    1  vyrd 1 buffers 2 2\n    2  call append 0 65\n"
        drawn += "    3  |                       call length 0\n    4  buffer 0 character 0 65 |\n"
        self.assert_drawn(log, drawn, "--names")
        self.assert_drawn("x\n0 write 1 65\n", "       caller 0\n    1  x\n    2  write 1 65\n", "--names")

    def test_a_key_and_the_lines_around_together(self):
        log = RUN.replace("lookup 5", "lookup 6") + RUN_ANSWER
        drawn = f"       caller 0\n    4  commit          <-- {RUN_ANSWER}"
        self.assert_drawn(log, drawn, "--key", "5", "--around", "1")

    def test_a_picture_is_sound(self):
        said = self.run_script("lanes", "--svg", given=RUN + RUN_ANSWER)
        texts = [node.firstChild.data for node in minidom.parseString(said.out).getElementsByTagName("text")]
        wanted = ["caller 0", "caller 1", "1", "vyrd 1 multiset 1 2", "2", "call insert 5", "3", "call lookup 5", "4", "commit"]
        self.assertEqual(texts[:10], wanted)
        self.assertEqual(texts[10], "\u2190 " + RUN_ANSWER.strip())


class Naming(ScriptTest):
    """Which lines --key draws. Each of these logs has the key 6, and other numbers that look like it."""

    def assert_lines(self, log, wanted, *words):
        words = words if "--key" in words else ("--key", "6", *words)
        said = self.run_script("lanes", *words, given="\n".join(log) + "\n")
        self.assertEqual(said.status, 0)
        numbers = [row.split()[0] for row in said.out.splitlines()]
        self.assertEqual([int(number) for number in numbers if number.isdigit()], wanted)

    def test_a_call_that_names_the_key_and_the_one_at_fault(self):
        log = RUN.replace("lookup 5", "lookup 6") + RUN_ANSWER
        drawn = RUN_DRAWN.replace("lookup 5", "lookup 6").splitlines(keepends=True)
        said = self.run_script("lanes", "--key", "6", given=log)
        self.assertEqual((said.out, said.status), ("".join(drawn[:1] + drawn[2:7]), 0))
        said = self.run_script("lanes", "--key", "7", given=log)
        alone = f"       caller 0\n    2  call insert 5\n    4  commit          <-- {RUN_ANSWER}    6  return 1\n"
        self.assertEqual((said.out, said.error, said.status), (alone, "lanes: no call names the key 7\n", 0))

    def test_two_keys(self):
        log = ["vyrd 1 multiset 1 1"]
        for element in (5, 6, 7):
            log += [f"0 call lookup {element}", "0 return 0"]
        self.assert_lines([*log, "end"], [2, 3, 4, 5], "--key", "5,6")

    def test_a_multiset_by_calls_and_by_the_values_of_slots(self):
        log = ["vyrd 2 multiset 4 2", "start 0 6", "start 3 6", "0 call delete 5", "1 call insert_pair 7 6", "0 write 6 1"]
        log += ["0 write 7 6", "1 return 0", "0 return 6", "1 call insert 5", "1 write 6 6", "1 return 1", "1 write 7 6", "end"]
        self.assert_lines(log, [3, 4, 5, 6, 7, 8, 9])

    def test_a_tree_by_the_keys_of_entries(self):
        log = ["vyrd 1 tree 1 2", "0 call insert 5 6", "0 write 8 6", "0 write 1 6", "0 return 1", "1 call delete 5"]
        log += ["1 write 12 6", "1 write 4 6", "1 return 6", "0 call lookup 6", "end"]
        self.assert_lines(log, [6, 7, 8, 9, 10])

    def test_a_cache_and_buffers_by_their_words_and_by_damage(self):
        for subject, first in (("cache", 5), ("buffers", 8)):
            log = [f"vyrd 1 {subject} 4 2", "0 call evict 3", f"0 write {2 * first} 1", "0 return 1"]
            log += ["1 call flush 2", "0 call evict 2", f"0 write {3 * first} 2", "0 return 2", "1 return 6", "end"]
            self.assert_lines(log, [2, 3, 4, 5, 6, 7, 8, 9])

    def test_a_log_of_version_3_by_arguments_replies_and_values(self):
        log = (TOOLS.parent / "specifications" / "queue.spec").read_text().splitlines()
        at = len(log)
        log += ["0 call enqueue 5", "0 write 1 5", "0 return 1", "1 call dequeue", "1 write 6 0", "1 return 6"]
        log += ["0 call enqueue 6", "# 6", "0 write 6 6", "0 return 1", "end"]
        self.assert_lines(log, [at + n for n in (4, 5, 6, 7, 9, 10)])

    def test_with_around_both_have_to_hold(self):
        log = [*RUN.replace("lookup 5", "lookup 6").splitlines(), RUN_ANSWER.strip()]
        self.assert_lines(log, [3, 4, 5], "--around", "1")

    def test_a_line_without_a_call_is_drawn_where_it_is_named(self):
        log = ["vyrd 1 multiset 1 1", "0 write 1 6", "end", "malformed at line 2: no call open"]
        self.assert_lines(log, [2])
        self.assert_lines(["vyrd 1 multiset 1 1", "0 call lookup 5", "malformed at line 3: no end"], [3])

    def test_a_log_without_a_sound_header_names_no_key(self):
        self.assert_lines(["vyrd 9 multiset 1 1", "0 call insert 6", "malformed at line 1: unknown version"], [1])


class Misuse(ScriptTest):
    def test_key_wants_a_number(self):
        for words in (["x"], ["²"], [""], ["-1"], ["9" * 21], ["1.5"], ["1,"], ["1, 2"]):
            said = self.run_script("lanes", "--key", *words, given=RUN + RUN_ANSWER)
            self.assert_refused(said, "lanes: --key takes a number of at most 20 digits, or some with commas between them")
        self.assert_refused(self.run_script("lanes", "--key", given=RUN + RUN_ANSWER), "lanes: --key takes a name")

    def test_around_wants_a_number(self):
        for words in (["x"], ["²"], [], [""], ["-1"], ["9" * 5000], ["1.5"]):
            said = self.run_script("lanes", "--around", *words, given=RUN + RUN_ANSWER)
            self.assert_refused(said, "lanes: --around takes a number of at most 9 digits")


class OtherLogs(ScriptTest):
    def test_an_answer_of_another_log_draws_nothing(self):
        for answer in (
            "malformed at line 99999999999: no end",
            "malformed at line 9: block raced",
            "malformed at line 7: no end",
            "malformed at line 0: no end",
            "violation at line 2: reply 1 not allowed",
            "violation at line 6: reply 1 not allowed",
            "violation at line 1: view differs at key 5",
            "violation at line 99999999999999999999: view differs at key 5",
        ):
            for words in ([], ["--svg"], ["--around", "2"]):
                said = self.run_script("lanes", *words, given=FAULT + f"end\n{answer}\n")
                self.assert_refused(said, OTHER)

    def test_a_file_whose_answer_is_of_another_log_draws_nothing(self):
        self.checker_says("malformed at line 99999999999: no end\n", 2)
        self.assert_refused(self.run_script("lanes", self.write("a.log", FAULT + "end\n")), OTHER)


class Checkers(ScriptTest):
    def test_another_status_is_passed_on_and_nothing_is_drawn(self):
        path = self.write("a.log", FAULT + "end\n")
        for status, ends in ((6, 6), (4, 4), (70, 70), (0, 70), (1, 70), (2, 70), (3, 3)):
            self.checker(f"exit {status}")
            said = self.run_script("lanes", path)
            self.assert_refused(said, f"lanes: the checker ended with status {status} and gave no verdict", ends)

    def test_a_verdict_with_the_status_of_another_is_none(self):
        self.checker_says(FAULT_ANSWER, 0)
        said = self.run_script("lanes", self.write("a.log", FAULT + "end\n"))
        self.assert_refused(said, "lanes: the checker ended with status 0 and gave no verdict", 70)

    def test_a_checker_that_is_not_there(self):
        said = self.run_script("lanes", self.write("a.log", FAULT + "end\n"))
        self.assert_refused(said, f"lanes: the checker {self.folder}/no_checker can't be run: there is no such program")


class Hostile(ScriptTest):
    def test_control_bytes_do_nothing_to_the_terminal(self):
        log = b"vyrd 1 multiset 1 1\n0 call \x1b[2J 5\n\x00\x9b31m\xe9\t\rend\n"
        for words in ([], ["--svg"]):
            said = self.run_script("lanes", *words, given=log)
            self.assertEqual((said.error, said.status), ("", 0))
            self.assertTrue(said.out.replace("\n", "").isprintable() and said.out.isascii())
            self.assertIn(r"call \x1b[2J 5", said.out)
            self.assertIn(r"\x00\x9b31m\xe9\x09\x0dend", said.out)

    def test_numbers_of_thousands_of_digits_are_cut_off(self):
        for line in ("0 return " + "9" * 5000, "9" * 5009, "0 write 1 " + "9" * 4999):
            said = self.run_script("lanes", given=f"vyrd 1 multiset 1 1\n{line}\nend\n")
            self.assertEqual((said.error, said.status), ("", 0))
            self.assertEqual(said.out.splitlines()[1], f"    2  {line[:256]} .. (5009 bytes)")

    def test_a_million_callers_have_no_million_columns(self):
        log = "vyrd 1 multiset 1 1\n" + "".join(f"{caller} open\n" for caller in range(20_000)) + "end\n"
        said = self.run_script("lanes", given=log)
        self.assertEqual(len(said.out.splitlines()[0].split("caller")) - 1, 128)
        self.assertEqual(said.out.splitlines()[-2], "20001  19999 open")

    def test_a_binary_file_is_drawn(self):
        said = self.run_script("lanes", given=bytes(range(256)) * 1000)
        self.assertEqual((said.error, said.status), ("", 0))
        self.assertTrue(said.out.replace("\n", "").isprintable() and said.out.isascii())

    def test_a_megabyte_behind_an_early_verdict(self):
        path = self.write("long.log", FAULT + LOOK * 40_000 + "end\n")
        self.checker_says(FAULT_ANSWER, 1)
        said = self.run_script("lanes", "--around", "1", path)
        wanted = "       caller 0\n    2  call insert 5\n    3  commit          <-- "
        self.assertEqual((said.out, said.status), (f"{wanted}{FAULT_ANSWER}    4  return 1\n", 0))
        self.assertEqual(len(self.run_script("lanes", path).out.splitlines()), 1 + 4 + 80_000 + 1)

    def test_200000_lines_around_a_late_one_take_seconds_and_little_memory(self):
        log = "vyrd 1 multiset 1 1\n" + LOOK * 100_000 + FAULT.partition("\n")[2] + "end\n"
        self.checker_says("violation at line 200003: view differs at key 5\n", 1)
        path = self.write("late.log", log)
        begun = time.monotonic()
        limited = f"ulimit -v 200000; exec '{TOOLS / 'lanes'}' --around 0 '{path}'"
        ran = subprocess.run(["bash", "-c", limited], env=self.environment, capture_output=True, text=True, check=False)
        wanted = "        caller 0\n200003  commit          <-- violation at line 200003: view differs at key 5\n"
        self.assertEqual((ran.stdout, ran.stderr, ran.returncode), (wanted, "", 0))
        self.assertLess(time.monotonic() - begun, 60)

    def test_a_slow_pipe_is_read_to_its_end(self):
        self.write("run", RUN + RUN_ANSWER)
        writer = "(head -c 30 run; sleep 0.3; tail -c +31 run)"
        command = ["sh", "-c", f"{writer} | '{TOOLS / 'lanes'}'"]
        ran = subprocess.run(command, cwd=self.folder, env=self.environment, capture_output=True, text=True, check=False)
        self.assertEqual((ran.stdout, ran.returncode), (RUN_DRAWN, 0))


if __name__ == "__main__":
    unittest.main()
