"""The command lines of the scripts: help, misuse, inputs that can't be read, outputs that can't be written."""

import os
import pty
import subprocess
import unittest

from support import FAULT, FAULT_ANSWER, TOOLS, ScriptTest

SCRIPTS = ("explain", "lanes", "lint", "hunt", "shrink")
JUDGED = FAULT + "end\n" + FAULT_ANSWER


class Help(ScriptTest):
    def test_help_goes_to_standard_output_with_status_0_and_names_the_status_of_misuse(self):
        for name in SCRIPTS:
            said = self.run_script(name, "--help")
            self.assertEqual((said.error, said.status), ("", 0), name)
            self.assertIn(f"tools/{name}", said.out)
            self.assertIn("64", said.out)

    def test_help_of_the_scripts_that_compare_and_test(self):
        for name in ("check", "tests/run"):
            said = self.run_script(name, "--help")
            self.assertEqual((said.error, said.status), ("", 0))
            self.assertIn(f"tools/{name}", said.out)

    def test_help_after_the_end_of_options_is_a_name(self):
        for name in SCRIPTS:
            said = self.run_script(name, "--", "--help")
            self.assert_refused(said, f"{name}: --help can't be read: No such file or directory")


class Misuse(ScriptTest):
    def test_an_unknown_option_is_refused(self):
        for name in SCRIPTS:
            said = self.run_script(name, "--colour")
            self.assert_refused(said, f"{name}: there is no option --colour; --help says which there are")

    def test_a_word_too_many_is_refused(self):
        for name, words in (("explain", "ab"), ("lanes", "ab"), ("lint", "ab"), ("hunt", ["a", "3", "b"])):
            said = self.run_script(name, *words)
            self.assert_refused(said, f"{name}: b is one word too many; --help says what there is")

    def test_a_missing_file_is_refused(self):
        for name in SCRIPTS:
            said = self.run_script(name, "no/such.log")
            self.assert_refused(said, f"{name}: no/such.log can't be read: No such file or directory")

    def test_a_folder_is_refused(self):
        for name in SCRIPTS:
            self.assert_refused(self.run_script(name, "."), f"{name}: . can't be read: Is a directory")

    def test_a_file_whose_reads_fail_is_refused(self):
        self.checker("echo 'accepted: 0 entries, 0 commits, 0 observers'")
        for name in ("explain", "lanes", "lint"):
            said = self.run_script(name, "/proc/self/mem")
            self.assert_refused(said, f"{name}: /proc/self/mem can't be read: Input/output error")

    def test_a_name_with_control_bytes_does_nothing_to_the_terminal(self):
        said = self.run_script("lint", "\x1b[2J")
        self.assert_refused(said, "lint: \\x1b[2J can't be read: No such file or directory")

    def test_closed_standard_input_is_refused(self):
        for name in SCRIPTS:
            command = ["sh", "-c", f"exec '{TOOLS / name}' <&-"]
            ran = subprocess.run(command, env=self.environment, capture_output=True, text=True, check=False)
            self.assertEqual((ran.stdout, ran.stderr, ran.returncode), ("", f"{name}: standard input is closed\n", 64))

    def test_the_scripts_that_compare_and_test_refuse_words_that_they_do_not_know(self):
        self.assert_refused(self.run_script("check", "x"), "check: it takes no words; --help says what it does")
        self.assert_refused(self.run_script("tests/run", "test_x"), f"run: there is no test_x in {TOOLS}/tests")


class Names(ScriptTest):
    def test_a_name_may_begin_with_a_minus_after_two_of_them(self):
        self.write("-x.log", "vyrd 1 multiset 1 1\nend\n")
        self.checker("cat > /dev/null\necho 'accepted: 0 entries, 0 commits, 0 observers'")
        accepted = "accepted: 0 entries, 0 commits, 0 observers\n"
        self.assertEqual(self.run_script("lint", "--", "-x.log").out, "nothing wrong with the spelling\n")
        self.assertEqual(self.run_script("explain", "--", "-x.log").out, accepted)
        self.assertEqual(self.run_script("lanes", "--", "-x.log").out, f"    1  vyrd 1 multiset 1 1\n    2  end\n{accepted}")

    def test_a_minus_is_standard_input(self):
        for name in ("explain", "lanes", "lint"):
            self.assertEqual(self.run_script(name, "-", given=JUDGED).out, self.run_script(name, given=JUDGED).out)

    def test_a_file_that_comes_only_once_is_read_as_any_other(self):
        self.take_program()
        path = self.write("fault.log", FAULT + "end\n")
        wanted = self.run_script("explain", path).out
        self.assertEqual(wanted.count("\n"), 17)
        command = ["bash", "-c", f"'{TOOLS / 'explain'}' <(cat '{path}')"]
        ran = subprocess.run(command, env=self.environment, capture_output=True, text=True, check=False)
        self.assertEqual((ran.stdout, ran.returncode), (wanted, 0))


    def test_reading_from_a_terminal_is_said(self):
        for name in ("explain", "lanes", "lint"):
            ours, theirs = pty.openpty()
            os.write(ours, b"\x04")  # Ctrl-D
            said = self.run_script(name, stdin=theirs)
            self.assertEqual(said.error.splitlines()[0], f"{name}: reading from the terminal, up to Ctrl-D")
            os.close(ours)
            os.close(theirs)


class Output(ScriptTest):
    def test_what_lanes_draws_may_be_read_in_part(self):
        log = "vyrd 1 multiset 1 1\n" + "0 call lookup 5\n0 return 0\n" * 20000 + "end\n"
        path = self.write("long.log", log)
        self.checker("cat > /dev/null\necho 'accepted: 40000 entries, 0 commits, 20000 observers'")
        command = ["bash", "-c", f"'{TOOLS / 'lanes'}' '{path}' | head -n 1; echo ${{PIPESTATUS[0]}}"]
        ran = subprocess.run(command, env=self.environment, capture_output=True, text=True, check=False)
        self.assertEqual((ran.stdout, ran.stderr), ("       caller 0\n141\n", ""))

    def test_what_hunt_caught_may_be_read_in_part(self):
        self.checker("yes '0 call lookup 5' | head -n 50000\nprintf 'violation at line 3: reply 1 not allowed\\n'\nexit 1")
        command = ["bash", "-c", f"'{TOOLS / 'hunt'}' - </dev/null | head -n 1; echo ${{PIPESTATUS[0]}}"]
        ran = subprocess.run(command, env=self.environment, capture_output=True, text=True, check=False)
        self.assertEqual((ran.stdout, ran.stderr), ("0 call lookup 5\n141\n", "hunt: caught in run 1\n"))

    def test_a_full_disk_is_said(self):
        explain = f"{FAULT_ANSWER}call at line 2\nreply at line 4\nagreed at the start: key 5 amount 0\n"
        self.checker(f"[ $1 != run ] || cat\n[ $1 = explain ] && printf '{explain}' || printf '{FAULT_ANSWER}'\nexit 1")
        for name in SCRIPTS:
            with open("/dev/full", "wb") as full:
                said = self.run_script(name, given=JUDGED, stdout=full)
            wanted = "hunt: caught in run 1\n" if name == "hunt" else ""
            wanted += f"{name}: this could not be written: No space left on device\n"
            self.assertEqual((said.error, said.status), (wanted, 5))

    def test_closed_standard_output_is_said(self):
        for name in SCRIPTS:
            command = ["sh", "-c", f"exec '{TOOLS / name}' >&-"]
            ran = subprocess.run(command, input=b"", env=self.environment, capture_output=True, check=False)
            self.assertEqual((ran.stderr.decode(), ran.returncode), (f"{name}: standard output is closed\n", 5))


if __name__ == "__main__":
    unittest.main()
