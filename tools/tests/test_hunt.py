"""What hunt takes for a catch: what the program says, together with its status. How it runs commands, and ends them."""

import os
import pty
import signal
import subprocess
import time
import unittest

from support import TOOLS, ScriptTest

CAUGHT = "vyrd 1 multiset 1 1\n0 call delete 5\n0 commit\n0 return 1\nend\nviolation at line 3: reply 1 not allowed\n"
RACED = "vyrd 1 multiset 1 2\nend\nmalformed at line 6: block raced\n"
ACCEPTED = "accepted: 0 entries, 0 commits, 0 observers\n"


class Hunting(ScriptTest):
    def program(self, said, status):
        """Makes a program that says this in each run."""
        self.write("said", said)
        self.checker(f"cat > given\necho run >> runs\ncat said\nexit {status}")

    def runs(self):
        return len((self.folder / "runs").read_text().splitlines())

    def test_a_violation_is_caught(self):
        self.program(CAUGHT, 1)
        said = self.run_script("hunt", given="a workload")
        self.assertEqual((said.out, said.error, said.status), (CAUGHT, "hunt: caught in run 1\n", 0))

    def test_a_malformed_run_is_caught(self):
        self.program(RACED, 2)
        said = self.run_script("hunt", given="a workload")
        self.assertEqual((said.out, said.error, said.status), (RACED, "hunt: caught in run 1\n", 0))

    def test_it_hunts_on_until_the_run_that_is_caught_and_prints_that_one_alone(self):
        self.write("caught", CAUGHT)
        self.write("accepted", "vyrd 1 multiset 1 1\n" + "0 call lookup 5\n0 return 0\n" * 20 + "end\n" + ACCEPTED)
        self.checker("echo run >> runs\n[ $(wc -l < runs) -eq 4 ] || exec cat accepted\ncat caught\nexit 1")
        said = self.run_script("hunt", "-", "9")
        self.assertEqual((said.out, said.error, said.status), (CAUGHT, "hunt: caught in run 4\n", 0))

    def test_all_runs_are_accepted(self):
        self.program(ACCEPTED, 0)
        said = self.run_script("hunt", "-", "3")
        self.assertEqual((said.out, said.error, said.status, self.runs()), ("", "hunt: all 3 runs were accepted\n", 1, 3))

    def test_it_plays_200_times_where_nothing_else_is_said(self):
        self.program(ACCEPTED, 0)
        said = self.run_script("hunt")
        self.assertEqual((said.error, said.status, self.runs()), ("hunt: all 200 runs were accepted\n", 1, 200))

    def test_each_run_gets_the_whole_workload_from_a_pipe_too(self):
        self.checker(f"cat >> given\nprintf '{ACCEPTED}'")
        self.run_script("hunt", "-", "3", given="work\nend\n")
        self.assertEqual((self.folder / "given").read_text(), "work\nend\n" * 3)


class NoCatch(ScriptTest):
    def test_a_missing_workload_is_no_catch_and_nothing_is_run(self):
        self.checker("touch ran\nexit 1")
        said = self.run_script("hunt", "no.work")
        self.assert_refused(said, "hunt: no.work can't be read: No such file or directory")
        self.assertFalse((self.folder / "ran").exists())

    def test_times_that_are_no_number_from_1_on_are_refused(self):
        self.write("w", "")
        for times in ("x", "0", "", "1.5", "²", "9" * 5000):
            self.assert_refused(self.run_script("hunt", "w", times), "hunt: TIMES is a number from 1 to 999999999")

    def test_a_status_without_the_line_that_belongs_to_it_is_no_verdict(self):
        for status, line in ((0, ""), (0, CAUGHT), (1, ""), (1, ACCEPTED), (1, RACED), (2, CAUGHT), (2, "malformed")):
            self.write("said", line)
            self.checker(f"cat said\nexit {status}")
            said = self.run_script("hunt")
            wanted = f"hunt: the checker ended with status {status} and gave no verdict\n"
            self.assertEqual((said.out, said.error, said.status), (line, wanted, 70))

    def test_another_status_is_passed_on_with_what_was_said(self):
        for status, line in ((7, "workload refused at line 1: no end\n"), (9, "events spent by caller 0\n"), (6, ""), (70, "")):
            self.write("said", line)
            self.checker(f"cat said\nexit {status}")
            said = self.run_script("hunt")
            wanted = f"hunt: the checker ended with status {status} and gave no verdict\n"
            self.assertEqual((said.out, said.error, said.status), (line, wanted, status))

    def test_a_program_that_a_signal_ended_is_no_catch(self):
        self.checker("kill -9 $$")
        said = self.run_script("hunt")
        self.assertEqual((said.error, said.status), ("hunt: the checker ended with status 137 and gave no verdict\n", 137))

    def test_a_checker_that_is_not_there_is_refused(self):
        self.assert_refused(
            self.run_script("hunt"), f"hunt: the checker {self.folder}/no_checker can't be run: there is no such program"
        )


LOG = "vyrd 1 multiset 1 1\n0 call delete 5\n0 commit\n0 return 1\nend\n"
VIOLATION = "violation at line 3: reply 1 not allowed\n"
RIGHT = "vyrd 1 multiset 1 1\nend\n"


class Commands(ScriptTest):
    """A checker that finds a violation where a log has a delete, and a command that is a shell script."""

    def setUp(self):
        super().setUp()
        self.checker(f"grep -q delete && {{ printf '{VIOLATION}'; exit 1; }}\nprintf '{ACCEPTED}'")
        self.write("wrong", LOG)
        self.write("right", RIGHT)

    def hunt(self, script, *options, words=(), **others):
        return self.run_script("hunt", *options, "--", "sh", "-c", script, *words, **others)

    def test_a_log_on_standard_output_is_caught(self):
        said = self.hunt("cat wrong", "--jobs", "1")
        self.assertEqual((said.out, said.error, said.status), (LOG + VIOLATION, "hunt: caught in run 1\n", 0))

    def test_a_log_in_a_file_is_caught_and_the_file_is_gone_after_it(self):
        said = self.hunt('echo "$0" > name; echo noise; cp wrong "$0"', "--jobs", "1", words=("{log}",))
        self.assertEqual((said.out, said.error, said.status), (LOG + VIOLATION, "hunt: caught in run 1\n", 0))
        name = (self.folder / "name").read_text().strip()
        self.assertTrue(name.endswith("1.log"))
        self.assertFalse(os.path.exists(os.path.dirname(name)))

    def test_the_number_of_the_run_is_told_in_words_and_in_the_environment(self):
        script = 'echo "$0 $VYRD_SEED" >> seeds; if [ "$0" = seed=4 ]; then cat wrong; else cat right; fi'
        said = self.hunt(script, "--jobs", "1", words=("seed={seed}",))
        self.assertEqual((said.error, said.status), ("hunt: caught in run 4\n", 0))
        self.assertEqual((self.folder / "seeds").read_text(), "".join(f"seed={k} {k}\n" for k in range(1, 5)))

    def test_all_runs_are_accepted(self):
        for options, count in (((), 200), (("--times", "3"), 3), (("--times", "3", "--jobs", "9"), 3)):
            self.write("runs", "")
            said = self.hunt("echo run >> runs; cat right", *options)
            self.assertEqual((said.out, said.error, said.status), ("", f"hunt: all {count} runs were accepted\n", 1))
            self.assertEqual((self.folder / "runs").read_text(), "run\n" * count)

    def test_so_many_run_at_a_time(self):
        wait = 'touch $VYRD_SEED.here; for i in $(seq 600); do [ -e 1.here ] && [ -e 2.here ] && exec cat right; sleep 0.1; done'
        said = self.hunt(wait, "--times", "2", "--jobs", "2")
        self.assertEqual((said.error, said.status), ("hunt: all 2 runs were accepted\n", 1))

    def test_the_log_is_kept_in_a_file_and_the_answer_is_printed(self):
        self.write("kept", "what was there before, and is longer than the log\n" * 9)
        said = self.hunt("cat wrong", "--keep", "kept")
        self.assertEqual((said.out, said.status), (VIOLATION, 0))
        self.assertEqual((self.folder / "kept").read_text(), LOG)

    def test_a_file_to_keep_a_log_in_is_left_as_it_was_where_nothing_is_caught(self):
        self.write("kept", "before")
        for name in ("kept", "new"):
            self.assertEqual(self.hunt("cat right", "--times", "2", "--keep", name).status, 1)
        self.assertEqual((self.folder / "kept").read_text(), "before")
        self.assertFalse((self.folder / "new").exists())

    def test_a_file_that_can_not_be_written_is_refused_before_the_hunt(self):
        said = self.hunt("touch ran; cat wrong", "--keep", "no/such")
        self.assert_refused(said, "hunt: no/such can't be written: No such file or directory", 5)
        self.assertFalse((self.folder / "ran").exists())

    def test_a_run_that_hangs_is_ended_with_what_it_started_and_judged(self):
        said = self.hunt("cat wrong; sleep 1000 & echo $! > pid; wait", "--seconds", "1", "--jobs", "1")
        wanted = "hunt: run 1 was ended after 1 seconds\nhunt: caught in run 1\n"
        self.assertEqual((said.out, said.error, said.status), (LOG + VIOLATION, wanted, 0))
        self.assert_gone(int((self.folder / "pid").read_text()))

    def test_a_run_that_hangs_and_does_not_want_to_end_is_ended(self):
        said = self.hunt("trap '' TERM; while :; do sleep 1; done", "--seconds", "1", "--jobs", "1")
        wanted = "hunt: run 1 was ended after 1 seconds\nhunt: run 1 was ended after 1 seconds and wrote no log\n"
        self.assertEqual((said.out, said.error, said.status), ("", wanted, 70))

    def test_a_command_that_fails_without_a_log_ends_the_hunt(self):
        for script, ended in (
            ("exit 3", "ended with status 3 and wrote no log"),
            (
                "echo first >&2; echo 'no \033 luck' >&2; exit 3",
                "ended with status 3 and wrote no log; the last that it said is: no \\x1b luck",
            ),
            ("kill -9 $$", "was ended by signal 9 and wrote no log"),
            ("true", "ended with status 0 and wrote no log"),
            ("echo Hello; cat wrong", "ended with status 0 and wrote no log: its first line is `Hello`"),
            ("head -c 5000 /dev/zero", "ended with status 0 and wrote no log: its first line is `" + "\\x00" * 200 + "`"),
        ):
            self.assert_refused(self.hunt(script, "--jobs", "1"), f"hunt: run 1 {ended}", 70)

    def test_a_command_that_fails_with_a_log_has_it_judged(self):
        self.assertEqual(self.hunt("cat wrong; exit 3").out, LOG + VIOLATION)
        self.assertEqual(self.hunt("cat right; exit 3", "--times", "2").status, 1)

    def test_a_command_that_is_not_there(self):
        said = self.run_script("hunt", "--jobs", "1", "--", "no/such", "-x")
        self.assert_refused(said, "hunt: the command no/such can't be run: No such file or directory")

    def test_a_checker_that_gives_no_verdict(self):
        self.checker("exit 6")
        self.assert_refused(self.hunt("cat wrong"), "hunt: the checker ended with status 6 and gave no verdict", 6)

    def test_misuse(self):
        for name in ("--times", "--jobs", "--seconds"):
            self.assert_refused(self.hunt("cat right", name, "0"), f"hunt: {name} takes a number from 1 on")
            self.assert_refused(self.hunt("cat right", name, "x"), f"hunt: {name} takes a number of at most 9 digits")
            said = self.run_script("hunt", name, "3", "w")
            self.assert_refused(said, f"hunt: {name} is for a command, and there is none; --help says where it stands")
        self.assert_refused(self.run_script("hunt", "--keep"), "hunt: --keep takes a name")
        self.assert_refused(self.hunt("cat right", "w"), "hunt: w is one word too many; --help says what there is")

    def test_on_a_terminal_it_says_how_far_it_is(self):
        ours, theirs = pty.openpty()
        self.hunt("[ $VYRD_SEED = 1 ] || sleep 6; cat right", "--times", "2", "--jobs", "1", stderr=theirs)
        os.close(theirs)
        said = os.read(ours, 10000).decode().splitlines()
        os.close(ours)
        self.assertEqual(said, ["hunt: 1 of 2 runs were accepted so far", "hunt: all 2 runs were accepted"])

    def test_what_is_caught_may_be_read_in_part_and_nothing_is_left_behind(self):
        self.environment["TMPDIR"] = str(self.folder)
        command = "for i in $(seq 20000); do echo 0 call delete 5; done"
        hunt = f"'{TOOLS / 'hunt'}' -- sh -c 'echo vyrd 1; {command}' | head -n 1; echo ${{PIPESTATUS[0]}}"
        options = {"env": self.environment, "cwd": self.folder, "capture_output": True, "text": True}
        ran = subprocess.run(["bash", "-c", hunt], check=False, **options)
        self.assertEqual(ran.stdout, "vyrd 1\n141\n")
        self.assertEqual(list(self.folder.glob("hunt.*")), [])

    def test_a_signal_ends_all_runs(self):
        for number, status in ((signal.SIGINT, 130), (signal.SIGTERM, 143), (signal.SIGHUP, 129)):
            script = "echo $$ > $VYRD_SEED.pid; trap '' INT TERM HUP; while :; do sleep 1; done"
            hunt = subprocess.Popen(
                [TOOLS / "hunt", "--jobs", "2", "--", "sh", "-c", script],
                cwd=self.folder,
                env={**self.environment, "TMPDIR": str(self.folder)},
                stderr=subprocess.PIPE,
            )
            pids = [self.number_in(f"{seed}.pid") for seed in (1, 2)]
            hunt.send_signal(number)
            _, error = hunt.communicate(timeout=60)
            self.assertEqual((error, hunt.returncode), (b"", status))
            for pid in pids:
                self.assert_gone(pid)
            self.assertEqual(list(self.folder.glob("hunt.*")), [])
            for seed in (1, 2):
                (self.folder / f"{seed}.pid").unlink()

    def test_a_signal_that_it_was_started_to_ignore_does_not_end_it(self):
        hunt = f"trap '' HUP; exec '{TOOLS / 'hunt'}' --times 1 -- sh -c 'kill -HUP $PPID; sleep 1; cat right'"
        ran = subprocess.run(["bash", "-c", hunt], env=self.environment, cwd=self.folder, capture_output=True, check=False)
        self.assertEqual((ran.stderr, ran.returncode), (b"hunt: all 1 runs were accepted\n", 1))

    def number_in(self, name):
        """The number that a run writes into a file, once it is there."""
        for _ in range(600):
            if (self.folder / name).exists() and (text := (self.folder / name).read_text()).endswith("\n"):
                return int(text)
            time.sleep(0.1)
        self.fail(f"there is no {name}")

    def assert_gone(self, pid):
        """A process that was killed has gone, or is about to be."""
        for _ in range(100):
            try:
                state = open(f"/proc/{pid}/stat", encoding="latin-1").read().rpartition(")")[2].split()[0]
            except OSError:
                return
            if state in "ZX":
                return
            time.sleep(0.1)
        self.fail(f"process {pid} is still there")


if __name__ == "__main__":
    unittest.main()
