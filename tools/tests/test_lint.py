"""What lint says of spelling. The rules are those of docs/LOG-FORMAT.md."""

import subprocess
import time
import unittest

from support import TOOLS, ScriptTest

HEADER = "vyrd 1 multiset 1 2\n"


class Spelling(ScriptTest):
    def assert_said(self, log, *lines):
        """These lines and no others, with the status that belongs to them."""
        said = self.run_script("lint", given=log)
        self.assertEqual((said.out.splitlines(), said.error, said.status), ([*lines], "", 1))

    def assert_nothing_wrong(self, log):
        said = self.run_script("lint", given=log)
        self.assertEqual((said.out, said.error, said.status), ("nothing wrong with the spelling\n", "", 0))

    def test_all_kinds_of_lines_are_well_spelled(self):
        entries = "0 call insert_pair 1 2\n0 write 7 0\n0 open\n0 commit\n0 close\n0 close commit\n63 return 0\nend\n"
        self.assert_nothing_wrong("vyrd 2 multiset 1024 64\nstart 0 2\nstart 1 1024\n" + entries)

    def test_the_greatest_numbers_are_well_spelled_and_the_next_ones_not(self):
        self.assert_nothing_wrong(HEADER + "4294967295 write 4294967295 18446744073709551615\nend\n")
        self.assert_said(
            HEADER + "4294967296 write 4294967296 18446744073709551616\nend\n",
            "line 2: it begins with a caller's number, and 4294967296 is above 4,294,967,295",
            "line 2: the word 4294967296 is above 4,294,967,295",
            "line 2: the value 18446744073709551616 is above 18,446,744,073,709,551,615",
        )

    def test_a_method_of_another_subject_has_a_hint(self):
        wanted = "line 2: the subject multiset has no method `flush`: it has insert, insert_pair, delete, lookup"
        self.assert_said(HEADER + "0 call flush 1\nend\n", wanted + "; it is one of cache")

    def test_words_that_are_nearly_right_have_a_hint(self):
        kinds = "call, return, write, commit, open, close and close commit"
        self.assert_said(HEADER + "0 comit\nend\n", f"line 2: there is no entry `comit`: there are {kinds}; `commit` is meant?")

    def test_no_bytes(self):
        self.assert_said("", "line 1: the log ends without the line `end`")

    def test_one_line_feed(self):
        header = "line 1: it is empty"
        self.assert_said("\n", header, "line 2: the log ends without the line `end`")

    def test_a_line_without_its_line_feed(self):
        self.assert_said(HEADER + "end", "line 2: it has no line feed at its end")
        self.assert_said(
            HEADER + "0 open", "line 2: it has no line feed at its end", "line 3: the log ends without the line `end`"
        )

    def test_carriage_returns_tabs_and_spaces(self):
        self.assert_said(HEADER + "end\r\n", "line 2: it ends with a carriage return: lines end with a line feed alone",
            "line 2: the last line is `end`, in small letters and alone", "line 3: the log ends without the line `end`")
        self.assert_said(HEADER + "0\topen\nend\n", "line 2: it has a tab: fields are separated by one space")
        self.assert_said(HEADER + "0 open \nend\n", "line 2: it has a space too many")

    def test_text_after_the_end_is_said_once(self):
        self.assert_said(HEADER + "end\nx\ny\n", "line 3: it stands after `end` on line 2")

    def test_twenty_faults_are_said_and_the_others_counted(self):
        said = self.run_script("lint", given=HEADER + "0 call insert 05\n" * 25 + "end\n")
        lines = said.out.splitlines()
        self.assertEqual(lines[:20], [f"line {line}: argument 1 `05` has a leading zero" for line in range(2, 22)])
        self.assertEqual(lines[20:], ["and 5 more"])

    def test_lines_of_65_bytes_are_too_long(self):
        spelled = "0 call insert " + "1" * 51  # 65 bytes
        wide = "line 2: argument 1 " + "1" * 51 + " is above 4,294,967,295"
        self.assert_said(HEADER + spelled + "\nend\n", "line 2: it has 65 bytes; 64 are the most", wide)


class Hostile(ScriptTest):
    def test_a_number_of_thousands_of_digits(self):
        said = self.run_script("lint", given=HEADER + "0 return " + "9" * 5000 + "\nend\n")
        self.assertEqual((said.out, said.error, said.status), ("line 2: it has 5009 bytes; 64 are the most\n", "", 1))

    def test_a_header_with_a_number_of_thousands_of_digits(self):
        said = self.run_script("lint", given="vyrd 1 multiset " + "9" * 5000 + " 1\nend\n")
        self.assertEqual((said.out, said.error, said.status), ("line 1: it has 5018 bytes; 64 are the most\n", "", 1))

    def test_control_bytes_are_shown_by_their_numbers(self):
        said = self.run_script("lint", given=HEADER.encode() + b"0 call \x1b[2J\x00\x9b 5\nend\n")
        self.assertEqual(said.out.splitlines()[0], "line 2: it has a byte that is no printable ASCII character")
        self.assertIn(r"has no method `\x1b[2J\x00\x9b`", said.out.splitlines()[1])
        self.assertTrue(said.out.replace("\n", "").isprintable() and said.out.isascii())

    def test_binary_input_is_said_to_be_none(self):
        said = self.run_script("lint", given=bytes(range(256)) * 40)
        self.assertEqual((said.error, said.status), ("", 1))
        self.assertIn("no printable ASCII character", said.out)
        self.assertTrue(said.out.isascii())

    def test_100_megabytes_of_one_line_take_no_memory(self):
        path = self.folder / "zeros"
        with open(path, "wb") as file:
            file.truncate(100_000_000)
        limited = f"ulimit -v 200000; exec '{TOOLS / 'lint'}' '{path}'"
        ran = subprocess.run(["bash", "-c", limited], capture_output=True, text=True, timeout=60, check=False)
        wanted = ["line 1: it has a byte that is no printable ASCII character"]
        wanted += ["line 1: it has 100000000 bytes; 64 are the most", "line 1: it has no line feed at its end"]
        wanted += ["line 2: the log ends without the line `end`"]
        self.assertEqual((ran.stdout.splitlines(), ran.stderr, ran.returncode), (wanted, "", 1))

    def test_100000_good_lines_and_as_many_bad_ones_take_seconds(self):
        for line in ("0 call lookup 5\n", "0 cal lokup 5x -4\n"):
            begun = time.monotonic()
            self.run_script("lint", given=HEADER + line * 100_000 + "end\n")
            self.assertLess(time.monotonic() - begun, 60)

    def test_a_slow_pipe_is_read_to_its_end(self):
        writer = "printf 'vyrd 1 multi'; sleep 0.2; printf 'set 1 1\\nen'; sleep 0.2; printf 'd\\n'"
        ran = subprocess.run(["sh", "-c", f"({writer}) | '{TOOLS / 'lint'}'"], capture_output=True, text=True, check=False)
        self.assertEqual((ran.stdout, ran.returncode), ("nothing wrong with the spelling\n", 0))

    def test_a_pipe_that_goes_on_after_the_end_is_left(self):
        ran = subprocess.run(
            ["bash", "-c", f"(printf 'vyrd 1 multiset 1 1\\nend\\n'; yes) | '{TOOLS / 'lint'}'"],
            capture_output=True, text=True, timeout=60, check=False,
        )
        self.assertEqual((ran.stdout, ran.returncode), ("line 3: it stands after `end` on line 2\n", 1))


if __name__ == "__main__":
    unittest.main()
