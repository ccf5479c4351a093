"""Lines and entries: what is read of a log."""

import io
import sys
import unittest

from support import TOOLS

sys.path.insert(0, str(TOOLS))

from logtext import entry_of, lines_of, shown


class Lines(unittest.TestCase):
    def lines(self, data):
        return list(lines_of(io.BufferedReader(io.BytesIO(data)), "a test"))

    def test_each_byte_is_in_one_line(self):
        self.assertEqual(self.lines(b""), [])
        self.assertEqual(self.lines(b"\n"), [(1, "", 0, True)])
        self.assertEqual(self.lines(b"a\n\nb"), [(1, "a", 1, True), (2, "", 0, True), (3, "b", 1, False)])
        self.assertEqual(self.lines(b"\xff\x00\n"), [(1, "\xff\x00", 2, True)])

    def test_long_lines_are_counted_and_cut_off(self):
        for length in (255, 256, 257, 258, 3_000_000):
            for end in (b"\n", b""):
                first, *others = self.lines(b"x" * length + end + b"y\n" * len(end))
                self.assertEqual((len(first[1]) >= min(length, 256), *first[2:]), (True, length, bool(end)))
                self.assertLessEqual(len(first[1]), 257)
                self.assertEqual(others, [(2, "y", 1, True)] * len(end))

    def test_what_has_the_form_of_an_entry(self):
        for text, kind, method, numbers in (
            ("0 call insert 5", "call", "insert", (5,)),
            ("0 call insert", "call", "insert", ()),
            ("63 return 07", "return", None, (7,)),
            ("0 write 1 2", "write", None, (1, 2)),
            ("0 open", "open", None, ()),
            ("0 close", "close", None, ()),
            ("0 close commit", "close commit", None, ()),
            ("0 commit", "commit", None, ()),
        ):
            entry = entry_of(3, text)
            self.assertEqual((entry.kind, entry.method, entry.numbers), (kind, method, numbers))
            self.assertEqual(f"{text.split()[0]} {entry.text}", text)

    def test_what_has_not_the_form_of_one(self):
        wrong = ["", "end", "0", "0 ", " 0 open", "0  open", "0 open ", "0 open\r", "0 write 1", "0 write 1 2 3", "0 call"]
        wrong += ["0 call ", "0 return -1", "0 return ²", "² open"]
        wrong += [ "0 close commits", "x open", "0 call insert x", "0 return " + "9" * 60]
        self.assertEqual([entry_of(2, text) for text in wrong], [None] * len(wrong))

    def test_shown_text_is_printable_ascii(self):
        self.assertEqual(shown("a\x1b[1m\x00\x9b\xe9\t~"), r"a\x1b[1m\x00\x9b\xe9\x09~")
        self.assertEqual(shown("x" * 257, 300), "x" * 256 + " .. (300 bytes)")



if __name__ == "__main__":
    unittest.main()
