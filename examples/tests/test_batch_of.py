"""Tests of batch_of. What a batch looks like is said in docs/LOG-FORMAT.md."""

import unittest

from scripts import ScriptTest


class BatchOf(ScriptTest):
    def batch_of(self, *words, **others):
        return self.run_script("batch_of", *words, **others)

    def test_files_in_their_order(self):
        self.file("a", b"x\n")
        self.file("b", b"")
        self.file("c", bytes(range(256)))
        batch = b"batch\nlog 256\n" + bytes(range(256)) + b"log 0\nlog 2\nx\nend\n"
        self.assert_ended(self.batch_of("c", "b", "a"), 0, batch, [])

    def test_names_from_a_list(self):
        self.file("a log", b"x\n")
        self.file("b", b"y")
        batch = b"batch\nlog 2\nx\nlog 1\nyend\n"
        self.assert_ended(self.batch_of(stdin=b"a log\nb\n"), 0, batch, [])
        self.assert_ended(self.batch_of(stdin=b"a log\nb"), 0, batch, [])
        self.assert_ended(self.batch_of(stdin=b""), 0, b"batch\nend\n", [])

    def test_names_that_begin_with_a_dash(self):
        for name in ("-", "-n", "--", "--help"):
            self.file(name, b"x\n")
        one = b"batch\nlog 2\nx\nend\n"
        for words in (["-"], ["-n"], ["--", "--"], ["--", "--help"]):
            self.assert_ended(self.batch_of(*words, stdin=b"not this"), 0, one, [])
        self.assert_ended(self.batch_of(stdin=b"-\n-n\n--\n--help\n"), 0, b"batch\n" + 4 * b"log 2\nx\n" + b"end\n", [])

    def test_pipes(self):
        self.assert_ended(self.run_shell('"$examples"/batch_of <(printf abc)'), 0, b"batch\nlog 3\nabcend\n", [])
        slowly = '"$examples"/batch_of <(printf ab; sleep 0.3; printf cd)'
        self.assert_ended(self.run_shell(slowly), 0, b"batch\nlog 4\nabcdend\n", [])

    def test_file_that_grows_while_it_is_copied(self):
        """One writes to the file for as long as the script runs."""
        self.file("log", b"x")
        grows = 'while :; do printf x >> log; done & "$examples"/batch_of log log; ended=$?; kill $!; exit $ended'
        ran = self.run_shell(grows)
        self.assertEqual((ran.returncode, ran.stderr), (0, b""))
        left = ran.stdout.removeprefix(b"batch\n")
        for _ in range(2):
            size, left = left.removeprefix(b"log ").split(b"\n", 1)
            self.assertEqual(left[: int(size)], int(size) * b"x")
            left = left[int(size) :]
        self.assertEqual(left, b"end\n")

    def test_names_that_are_none(self):
        """A log in place of the names, say: of a line that is long the sentence has the beginning."""
        self.assert_ended(self.batch_of(stdin=b"a" * 5000), 64, b"", ["'" + 4096 * "a" + "..' can't be read"])
        self.assert_ended(self.batch_of(stdin=b"\0\n"), 64, b"", ["'\\x00' can't be read"])

    def test_unreadable_files_leave_nothing(self):
        self.file("a", b"x\n")
        (self.folder / "folder").mkdir()
        self.assert_ended(self.batch_of("a", "missing"), 64, b"", ["'missing' can't be read"])
        self.assert_ended(self.batch_of("a", "folder"), 64, b"", ["'folder' can't be read"])
        self.assert_ended(self.batch_of("a", "-missing"), 64, b"", ["'-missing' can't be read"])
        self.assert_ended(self.batch_of(stdin=b"a\n\na\n"), 64, b"", ["'' can't be read"])

    def test_unreadable_list(self):
        self.assert_ended(self.run_shell('"$examples"/batch_of < .'), 64, b"", ["with the names, can't be read"])
        self.assert_ended(self.run_shell('"$examples"/batch_of <&-'), 64, b"", ["with the names, can't be read"])

    def test_folder_as_standard_input_that_is_not_needed(self):
        self.file("a", b"x\n")
        self.assert_ended(self.run_shell('"$examples"/batch_of a < .'), 0, b"batch\nlog 2\nx\nend\n", [])

    def test_longest_log(self):
        self.file("most", bytes(16_777_216))
        self.assertEqual(self.batch_of("most").stdout, b"batch\nlog 16777216\n" + bytes(16_777_216) + b"end\n")
        self.file("more", bytes(16_777_217))
        self.file("a", b"x\n")
        for name in ("more", "/dev/zero"):
            self.assert_ended(self.batch_of("a", name, "a"), 64, b"batch\nlog 2\nx\n", [f"'{name}' has more than"])

    def test_output_that_takes_nothing(self):
        self.file("a", b"x\n")
        self.assert_ended(self.run_shell('"$examples"/batch_of a > /dev/full'), 5, b"", ["can't be written to"])
        self.assert_ended(self.run_shell('"$examples"/batch_of a >&-'), 5, b"", ["can't be written to"])

    def test_many_small_logs(self):
        for number in range(1000):
            self.file(f"{number}", b"%d\n" % number)
        names = b"".join(b"%d\n" % number for number in range(1000))
        logs = b"".join(b"log %d\n%d\n" % (len(str(number)) + 1, number) for number in range(1000))
        self.assert_ended(self.batch_of(stdin=names), 0, b"batch\n" + logs + b"end\n", [])

    def test_output_that_ends_early(self):
        self.file("a", bytes(1 << 20))
        ran = self.run_shell('{ "$examples"/batch_of a a; echo $? > status; } | head -c 8')
        self.assertEqual(ran.stdout, b"batch\nlo")
        self.assertEqual((self.folder / "status").read_bytes(), b"5\n")

    def test_no_temporary_folder_is_needed(self):
        self.file("a", b"x\n")
        self.assert_ended(self.batch_of("a", TMPDIR="/missing"), 0, b"batch\nlog 2\nx\nend\n", [])

    def test_nothing_is_left_behind(self):
        self.file("a", b"x\n")
        (self.folder / "kept").mkdir()
        for words in (["a"], ["a", "missing"], ["a", "/dev/zero"]):
            self.batch_of(*words, TMPDIR=str(self.folder / "kept"))
        self.assertEqual(list((self.folder / "kept").iterdir()), [])


if __name__ == "__main__":
    unittest.main()
