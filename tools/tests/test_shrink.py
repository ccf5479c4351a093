"""What shrink prints: a log with the same fault, which can't lose one more execution; and what it ends with otherwise.

The checker is made up here, for a multiset and for what these logs need: it knows the calls, the words, two views and some rules.
"""

import os
import re
import subprocess
import time
import unittest

from support import FAULT, FAULT_ANSWER, TOOLS, ScriptTest

CHECKER = r'''#!/usr/bin/env -S python3 -I -S
import collections, sys
form, told, last = sys.argv[1], [], {}  # told: what follow says; last: by the key the line of the last step
if form == "check":
    with open("checks", "a") as checks:
        checks.write("check\n")
text = sys.stdin.buffer.read().decode("latin-1")
lines = text.split("\n")
def end(answer, status, *behind):
    print(answer, *(told if form == "follow" else behind if form == "explain" else ()), sep="\n")
    sys.exit(status)
def malformed(line, rule):
    end(f"malformed at line {line}: {rule}", 2)
if len(lines) == 1 and len(text) <= 64:
    malformed(1, "no line feed" if text else "no end")
head = lines[0].split(" ")
if len(head) != 5 or head[0] != "vyrd" or head[2] != "multiset":
    malformed(1, "bad header")
if head[1] not in ("1", "2"):
    malformed(1, "unknown version")
words, callers, calls, entries, at = collections.Counter(), int(head[4]), {}, [], 1
while head[1] == "2" and lines[at].startswith("start "):
    words[int(lines[at].split()[1])] = int(lines[at].split()[2])
    if lines[at].split()[2] == "0":
        malformed(at + 1, "start out of range")
    at += 1
def shown():
    return collections.Counter(words[w + 1] for w in list(words) if w % 2 == 0 and words[w] == 2)
def write(word, value, line, at):
    old, before = words[word], shown()
    words[word] = value
    said = f"at line {line}: word {word} from {old} to {value}, in effect at line {at}"
    keys = [key for key in sorted(set(before) | set(shown())) if before[key] != shown()[key]]
    told.extend(f"change {said}, key {key} amount {before[key]} to {shown()[key]}" for key in keys)
    if not keys:
        told.append(f"write {said}")
def reply_of(at):
    caller = lines[at].split(" ")[0]
    for place in range(at, len(lines)):
        if lines[place].startswith(caller + " return "):
            return int(lines[place].split()[2])
    return None
spec, blocks, past = shown(), {}, {}
told.extend(f"agreed at the start: key {key} amount {spec[key]}" for key in sorted(spec))
def right(state, call):
    return int(state[call[1]] > 0)
for at in range(at, len(lines)):
    fields = lines[at].split(" ")
    if lines[at] == "end":
        if calls:
            malformed(at + 1, "call not returned")
        if at == len(lines) - 1:
            malformed(at + 1, "no line feed")
        if lines[at + 1 :] != [""]:
            malformed(at + 2, "text after end")
        end(f"accepted: {at} entries, 0 commits, 0 observers", 0)
    if at == len(lines) - 1:
        malformed(at + 1, "no line feed" if lines[at] else "no end")
    if not fields[0].isdigit() or len(fields) < 2:
        malformed(at + 1, "bad entry")
    caller, kind = int(fields[0]), " ".join(fields[1:]) if fields[1] == "close" else fields[1]
    if caller >= callers:
        malformed(at + 1, "caller out of range")
    if kind != "call" and caller not in calls:
        malformed(at + 1, "no call open")
    if kind == "call":
        calls[caller] = (fields[2], int(fields[3]))
        past[caller] = {right(spec, calls[caller]): at + 1}
    elif kind == "write":
        if any(other != caller and any(w == fields[2] for w, *_ in block) for other, block in blocks.items()):
            malformed(at + 1, "block raced")
        if caller in blocks:
            blocks[caller].append((fields[2], int(fields[3]), at + 1))
        else:
            write(int(fields[2]), int(fields[3]), at + 1, at + 1)
    elif kind == "open":
        blocks[caller] = []
    elif kind == "return":
        call = calls.pop(caller)
        if call[0] == "lookup" and int(fields[2]) not in past[caller]:
            answers = [f"answer from line {line}: {answer}" for answer, line in past[caller].items()]
            end(f"violation at line {at + 1}: observer reply {fields[2]} in no state", 1, *answers)
    if kind in ("close", "close commit"):
        for word, value, line in blocks.pop(caller):
            write(int(word), value, line, at + 1)
    if kind in ("commit", "close commit"):
        method, x = calls[caller]
        reply = reply_of(at)
        if reply is None:
            continue
        if method == "delete" and reply != right(spec, (method, x)):
            behind = [f"state before line {at + 1}: key {x} amount {spec[x]}", f"allowed reply {right(spec, (method, x))}"]
            behind += [f"last step at line {last[x]}: key {x} amount {spec[x]}"] if x in last else []
            end(f"violation at line {at + 1}: reply {reply} not allowed", 1, *behind)
        spec[x] += reply * (1 if method == "insert" else -1)
        if reply:
            told.append(f"step at line {at + 1}: key {x} amount {spec[x]}")
            last[x] = at + 1
        now = shown()
        for key in sorted(set(spec) | set(now)):
            if spec[key] != now[key]:
                differ = f"agreed at the start: key {key} amount 0", f"words after line {at + 1}: key {key} amount {now[key]}"
                end(f"violation at line {at + 1}: view differs at key {key}", 1, *differ,
                    f"state after line {at + 1}: key {key} amount {spec[key]}")
        for other, call in calls.items():
            past[other].setdefault(right(spec, call), at + 1)
'''


def insert(caller, slot, x):
    return [f"{caller} call insert {x}", f"{caller} write {2 * slot + 1} {x}", f"{caller} write {2 * slot} 2"] + [
        f"{caller} commit",
        f"{caller} return 1",
    ]


def delete(caller, slot, x):
    return [f"{caller} call delete {x}", f"{caller} write {2 * slot} 0", f"{caller} commit", f"{caller} return 1"]


def lookup(caller, x, reply):
    return [f"{caller} call lookup {x}", f"{caller} return {reply}"]


def log_of(lines, callers=4):
    return "\n".join([f"vyrd 1 multiset 2 {callers}", *lines, "end", ""])


# Right executions of three callers, before and after a fault. They leave 8 in slot 1.
NOISE = insert(1, 1, 8) + [line for k in range(40) for line in insert(2, 2, 4) + lookup(1, 4, 1) + delete(2, 2, 4)]


class ShrinkTest(ScriptTest):
    def setUp(self):
        super().setUp()
        path = self.write("checker", CHECKER)
        os.chmod(path, 0o755)
        self.environment["VYRD"] = path

    def answer(self, text):
        """What the checker says of a log."""
        given = text.encode("latin-1")
        ran = subprocess.run([self.folder / "checker", "check"], input=given, cwd=self.folder, capture_output=True, check=False)
        return ran.stdout.decode().strip()

    def checks(self):
        return len((self.folder / "checks").read_text().splitlines())

    def shrunk(self, text, *words):
        """What shrink prints of a log, after its last line is compared with the log and what it had to say."""
        (self.folder / "checks").write_text("")
        said = self.run_script("shrink", *words, given=text)
        checks = self.checks()
        had = text.count("\n") + (text[-1:] not in ("", "\n"))
        has = said.out.count("\n") + (said.out[-1:] not in ("", "\n"))
        fault = self.answer(text).split(": ", 1)[1]
        wanted = f"shrink: {had} lines became {has} in {checks} checks: {self.answer(said.out)}\n"
        self.assertEqual((said.error, said.status), (wanted, 0))
        self.assertEqual(self.answer(said.out).split(": ", 1)[1], fault)
        return said.out

    def assert_shrunk(self, text, wanted):
        self.assertEqual(self.shrunk(text), wanted)


class Faults(ShrinkTest):
    """One of each kind: what is left, whole, so that it can be seen that nothing more can go."""

    def test_a_view_that_a_taken_slot_makes_differ(self):
        log = log_of(NOISE + insert(3, 1, 5) + NOISE)
        wanted = ["vyrd 2 multiset 2 1", "start 2 2", "start 3 8", *insert(0, 1, 5), "end", ""]
        self.assert_shrunk(log, "\n".join(wanted))

    def test_a_reply_keeps_the_state_in_which_it_was_right(self):
        log = log_of(NOISE + delete(3, 1, 8) + insert(1, 2, 9) + delete(2, 1, 8) + NOISE)
        wanted = ["vyrd 2 multiset 2 2", "start 2 2", "start 3 8", *delete(0, 1, 8), *delete(1, 1, 8), "end", ""]
        self.assert_shrunk(log, "\n".join(wanted))

    def test_what_the_call_at_fault_wrote_over_stays(self):
        """A delete found the 8, and took out the 9 that has come to its slot meanwhile."""
        log = log_of(NOISE + ["3 call delete 8", *delete(2, 1, 8), *insert(2, 1, 9), "3 write 2 0", "3 commit", "3 return 1"])
        middle = ["0 call delete 8", *delete(1, 1, 8), *insert(1, 1, 9), "0 write 2 0", "0 commit", "0 return 1"]
        self.assert_shrunk(log, "\n".join(["vyrd 2 multiset 2 2", "start 2 2", "start 3 8", *middle, "end", ""]))

    def test_a_reply_that_was_never_right_needs_nothing_else(self):
        self.assert_shrunk(log_of(NOISE + delete(3, 3, 77) + NOISE), log_of(delete(0, 3, 77), 1))

    def test_an_observer_keeps_the_state_in_which_it_was_right(self):
        log = log_of(NOISE + delete(3, 1, 8) + lookup(2, 8, 1) + NOISE)
        wanted = ["vyrd 2 multiset 2 2", "start 2 2", "start 3 8", *delete(0, 1, 8), *lookup(1, 8, 1), "end", ""]
        self.assert_shrunk(log, "\n".join(wanted))

    def test_a_raced_block_keeps_the_one_that_is_open(self):
        race = ["0 call insert 5", "0 open", "0 write 4 2", "3 call insert 6", "3 write 4 2"]
        rest = ["3 commit", "3 return 1", "0 close commit", "0 return 1"]
        wanted = ["0 call insert 5", "0 open", "0 write 4 2", "1 call insert 6", "1 write 4 2"]
        self.assert_shrunk(log_of(NOISE + race + rest + NOISE), log_of(wanted, 2))

    def test_a_line_that_is_no_entry(self):
        self.assert_shrunk(log_of([*NOISE, "who knows", *NOISE]), log_of(["who knows"], 1))

    def test_a_caller_that_the_header_does_not_have_keeps_its_number(self):
        self.assert_shrunk(log_of(NOISE + lookup(4, 1, 0)), log_of(["4 call lookup 1"]))

    def test_a_call_that_does_not_return(self):
        self.assert_shrunk(log_of(["3 call lookup 1", *NOISE]), log_of(["0 call lookup 1"], 1))

    def test_texts_that_end_where_they_should_not(self):
        whole = log_of(NOISE)
        self.assert_shrunk(whole.removesuffix("end\n"), "vyrd 1 multiset 2 1\n")
        self.assert_shrunk(whole.removesuffix("\n"), "vyrd 1 multiset 2 1\nend")
        self.assert_shrunk(whole + "what\nmore\n", "vyrd 1 multiset 2 1\nend\nwhat\n")

    def test_calls_that_are_open_where_a_text_ends_stay(self):
        is_open = ["3 call insert 3", "3 write 13 3", "1 call lookup 7"]
        lines = [*NOISE, *is_open[:2], *lookup(2, 1, 0), *is_open[2:], *insert(2, 3, 5)]
        wanted = log_of(["0 call insert 3", "0 write 13 3", "1 call lookup 7"], 2).removesuffix("end\n")
        self.assert_shrunk(log_of(lines).removesuffix("end\n"), wanted)
        self.assert_shrunk(log_of([*lines, "2 call"]).removesuffix("\nend\n"), wanted + "2 call")

    def test_headers(self):
        self.assert_shrunk("vyrd 3 multiset 1 1\n" + "0 call lookup 1\n" * 99, "vyrd 3 multiset 1 1\n")
        self.assert_shrunk("\n" * 100, "\n")

    def test_starting_lines(self):
        starts = "".join(f"start {word} {abs(word - 7)}\n" for word in range(1, 15))
        self.assert_shrunk(f"vyrd 2 multiset 2 1\n{starts}end\n", "vyrd 2 multiset 2 1\nstart 7 0\nend\n")


    def test_starting_lines_that_nothing_but_the_call_at_fault_has_to_do_with(self):
        call = ["0 call insert 5", "0 write 11 5", "0 commit", "0 return 1"]
        starts = ["start 8 2", "start 9 9", "start 10 1", "start 11 7"]
        log = "\n".join(["vyrd 2 multiset 2 4", *starts, *NOISE, *call, "end", ""])
        self.assert_shrunk(log, log_of(call, 1))

    def test_a_log_goes_back_to_version_1_only_where_the_fault_stays(self):
        of_version_2 = f"grep -q 'vyrd 2' && echo '{FAULT_ANSWER.strip()}' && exit 1"
        self.checker(f"{of_version_2}\necho 'malformed at line 1: bad header'\nexit 2")
        text = FAULT.replace("vyrd 1", "vyrd 2") + "end\n"
        self.assertEqual(self.run_script("shrink", given=text).out, text)


class Smallest(ShrinkTest):
    def executions(self, text):
        """The places of the lines of each execution."""
        found, is_open = [], {}
        for place, line in enumerate(text.split("\n")):
            if entry := re.match("([0-9]+) ([a-z]+)", line):
                if entry[2] == "call":
                    found.append([])
                    is_open[entry[1]] = found[-1]
                is_open[entry[1]].append(place)
        return found

    def test_what_is_printed_can_not_lose_one_more_execution(self):
        inserts = [line for k in range(8) for line in insert(k % 4, k, k)]
        steps = ["0 call insert 20", "0 write 5 20", "1 call insert 21", "1 write 5 21", "1 write 4 2", "1 commit", "0 write 4 2"]
        steps += ["0 write 5 20", "0 commit", "1 return 1", "0 return 1"]
        text = self.shrunk(log_of(insert(0, 0, 9) + NOISE + steps + inserts))
        fault = self.answer(text).split(": ", 1)[1]
        executions = self.executions(text)
        self.assertEqual(len(executions), 2)
        for execution in executions:
            lines = [line for place, line in enumerate(text.split("\n")) if place not in execution]
            self.assertNotIn(fault, self.answer("\n".join(lines)))

    def test_what_is_printed_does_not_get_smaller(self):
        small = self.shrunk(log_of(NOISE + insert(3, 1, 5) + NOISE))
        self.assertEqual(self.run_script("shrink", given=small).out, small)

    def test_a_long_log_takes_few_checks(self):
        noise = [line for k in range(2000) for line in insert(2, 2, 4) + lookup(1, 4, 1) + delete(2, 2, 4)]
        text = log_of(insert(1, 1, 8) + noise + insert(3, 1, 5) + noise)
        before = time.monotonic()
        said = self.run_script("shrink", given=text)
        self.assertEqual(said.out.count("\n"), 9)
        self.assertLess(self.checks(), 40)
        self.assertLess(time.monotonic() - before, 60)


class Options(ShrinkTest):
    LOG = log_of(NOISE + insert(3, 1, 5) + NOISE)

    def test_the_answer_is_printed_after_the_log_where_it_is_asked_for(self):
        small = self.shrunk(self.LOG)
        said = self.run_script("shrink", "--answer", given=self.LOG)
        self.assertEqual(said.out, f"{small}violation at line 7: view differs at key 8\n")

    def test_an_answer_after_the_log_is_no_part_of_it(self):
        given, small = self.LOG + self.answer(self.LOG) + "\n", self.shrunk(self.LOG)
        self.assertEqual(self.run_script("shrink", given=given).out, small)
        self.assertEqual(self.run_script("shrink", self.write("a.log", given)).out, small)

    def test_where_the_checks_are_spent_the_smallest_log_so_far_is_printed(self):
        said = self.run_script("shrink", "--checks", "1", given=self.LOG)
        self.assertEqual((said.out, said.status), (self.LOG, 0))
        self.assertIn("shrink: no check was left after 1, so it may not be the smallest\n", said.error)
        said = self.run_script("shrink", "--checks", "2", given=self.LOG)
        self.assertEqual(said.out, log_of(NOISE + insert(3, 1, 5)))

    def test_no_checks_at_all_are_refused(self):
        self.assert_refused(self.run_script("shrink", "--checks", "0"), "shrink: --checks takes a number from 1 on")
        wanted = "shrink: --checks takes a number of at most 9 digits"
        for words in (("--checks",), ("--checks", "x"), ("--checks", "9" * 10)):
            self.assert_refused(self.run_script("shrink", *words), wanted)


class Inputs(ShrinkTest):
    def test_a_log_that_is_accepted(self):
        text = log_of(NOISE)
        said = self.run_script("shrink", self.write("a.log", text))
        self.assert_refused(said, f"shrink: there is nothing to shrink: {self.answer(text)}", 1)

    def test_an_empty_log_is_as_small_as_it_can_be(self):
        self.assert_shrunk("", "")

    def test_bytes_that_are_no_log(self):
        for given in (b"\x00" * 3000, b"\xff\n\xfe\n", bytes(range(256)) * 9000):
            said = self.run_script("shrink", given=given)
            self.assertEqual((self.answer(said.out), said.status), ("malformed at line 1: bad header", 0))
            self.assertLess(len(said.out), 300)

    def test_a_name_that_begins_with_a_minus(self):
        self.write("-x.log", FAULT + "end\n")
        self.assertEqual(self.run_script("shrink", "--", "-x.log").out, FAULT + "end\n")

    def test_a_slow_pipe(self):
        lines = "'vyrd 1 multiset 1 1' '0 call insert 5' '0 commit' '0 return 1' end"
        command = ["bash", "-c", f"for line in {lines}; do echo \"$line\"; sleep 0.1; done | '{TOOLS / 'shrink'}'"]
        ran = subprocess.run(command, cwd=self.folder, env=self.environment, capture_output=True, text=True, check=False)
        self.assertEqual((ran.stdout, ran.returncode), (FAULT + "end\n", 0))

    def test_a_checker_that_gives_no_verdict(self):
        for status, ends in ((6, 6), (70, 70), (0, 70), (1, 70)):
            self.checker(f"exit {status}")
            said = self.run_script("shrink", given=FAULT + "end\n")
            self.assert_refused(said, f"shrink: the checker ended with status {status} and gave no verdict", ends)

    def test_a_checker_that_says_the_same_of_each_log_is_believed_where_it_can_be(self):
        self.checker_says(FAULT_ANSWER.strip(), 1)
        said = self.run_script("shrink", given=FAULT + "end\n")
        self.assertEqual((said.out, said.status), (FAULT + "end\n", 0))

    def test_too_many_lines_can_not_become_fewer(self):
        self.checker("cat > /dev/null\necho malformed at line 3: too many lines\nexit 2")
        said = self.run_script("shrink", given=FAULT + "end\n")
        self.assert_refused(said, "shrink: a log with fewer lines can't have too many")

    def test_an_answer_about_another_log_is_refused(self):
        for answer in ("violation at line 99: reply 1 not allowed", "violation at line 1: reply 1 not allowed"):
            self.checker(f"cat > /dev/null\necho {answer}\nexit 1")
            said = self.run_script("shrink", given=FAULT + "end\n")
            self.assert_refused(said, "shrink: this log isn't the one that the answer is about")


if __name__ == "__main__":
    unittest.main()
