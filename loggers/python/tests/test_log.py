"""What stands in a log byte by byte, and what is refused."""

import io
import sys
import tempfile
import threading
import unittest
from pathlib import Path

sys.path.insert(0, str(Path(__file__).resolve().parent.parent))
from vyrd_log import Header, Log, LogError  # noqa: E402


SPECIFICATION = """vyrd 3 own 2 200
list all
method take x
  answer 0
  allow (reply == 1)
    drop first all
log
"""


class Full(io.RawIOBase):
    """A device that is full."""

    def write(self, data):
        raise OSError("full")


class OneByte(io.BytesIO):
    """A file that takes a byte at a time."""

    def write(self, data):
        return super().write(bytes(data[:1]))


class Tests(unittest.TestCase):
    def test_each_line(self):
        file = OneByte()
        with Log(Header(1, "tree", 2, 3), file, watched=False) as log:
            first, second = log.caller(), log.caller()
            first.call("insert", 4294967295, 0)
            with first.step() as lines:
                lines.open()
                lines.write(4, 2**62)
                lines.close()
                lines.close_commit()
                lines.entry("commit")
            first.commit()
            first.returns(2**64 - 1)
            with second.step() as lines:
                lines.observed("lookup", 7, reply=1)
                lines.call("delete", 7)
                lines.helping(2).commit()
                lines.commit()
                lines.returns(False)
        wanted = (
            "vyrd 1 tree 2 3|0 call insert 4294967295 0|0 open|0 write 4 4611686018427387904|0 close|"
            "0 close commit|0 commit|0 commit|0 return 18446744073709551615|1 call lookup 7|"
            "1 return 1|1 call delete 7|2 commit|1 commit|1 return 0|end|"
        )
        self.assertEqual(file.getvalue().decode(), wanted.replace("|", "\n"))

    def test_headers(self):
        header = Header(2, "multiset", 1, 1, {3: 0, 1: 5, 0: 2})
        self.assertEqual(header.lines, "vyrd 2 multiset 1 1\nstart 0 2\nstart 1 5\n")
        header = Header.text("vyrd 3 own 0 100\nlog", 100)
        self.assertEqual((header.lines, header.callers), ("vyrd 3 own 0 100\nlog\n", 100))
        refused = [
            (lambda: Header(3, "tree", 1, 1), "the version of a log is 1 or 2"),
            (lambda: Header(1, "queue", 1, 1), "no subject of a log: queue"),
            (lambda: Header(1, "tree", 0, 1), "the size of a log is from 1 to 1,024"),
            (lambda: Header(1, "tree", 1025, 1), "the size of a log is from 1 to 1,024"),
            (lambda: Header(1, "tree", 1, 0), "the callers of a log are from 1 to 64"),
            (lambda: Header(1, "tree", 1, 65), "the callers of a log are from 1 to 64"),
            (lambda: Header(1, "tree", 1, 1, {0: 1}), "words at the start are of version 2"),
            (lambda: Header.text("", 1), "a log has a header"),
            (lambda: Header.text("vyrd 3 own 0 0", 0), "the callers of a log are from 1 on"),
        ]
        for make, sentence in refused:
            self.refuses(make, sentence)

    def test_own_headers(self):
        with tempfile.TemporaryDirectory() as folder:
            path = Path(folder, "unit.spec")
            path.write_bytes(SPECIFICATION.encode())
            starting = SPECIFICATION + "start 0 5\nstart 1 7\n"
            for header in (
                Header.own(SPECIFICATION, {1: 7, 0: 5, 2: 0}),
                Header.own(SPECIFICATION.rstrip(), {1: 7, 0: 5}),
                Header.own_file(path, {1: 7, 0: 5}),
            ):
                self.assertEqual((header.lines, header.callers), (starting, 200))
            path.write_bytes(b"\xff")
            self.refuses(lambda: Header.own_file(path), f"can't read {path}: it isn't UTF-8")
            path.unlink()
            with self.assertRaises(FileNotFoundError):
                Header.own_file(path)
        sentence = "a specification begins with the line `vyrd 3 own WORDS CALLERS`"
        for first in (
            *("", "vyrd 2 own 0 1", "vyrd 3 own 0", "vyrd 3 own 0 0", "vyrd 3 own 0 257", "vyrd 3 own 65537 1"),
            *("vyrd 3 own 00 1", "vyrd 3 own 0 1 ", "vyrd 3 own -1 1", "vyrd 3 own 4294967296 1", "\nvyrd 3 own 0 1"),
        ):
            refused = sentence + ", with up to 65,536 words and from 1 to 256 callers"
            self.refuses(lambda: Header.own(first + "\nlog\n"), refused)  # noqa: B023
        for rest in ("", "\nmethod x", "\nlog\n\n", "\n log", "\nlog\nend"):
            refused = "a specification ends with the line `log`"
            self.refuses(lambda: Header.own("vyrd 3 own 65536 256" + rest), refused)  # noqa: B023
        returns = "a line of the specification ends with a carriage return: lines end with a line feed alone"
        for rest in ("\r\nlog\r\n", "\r\nlog\n", "\nlog\r\n"):
            self.refuses(lambda: Header.own("vyrd 3 own 65536 256" + rest), returns)  # noqa: B023

    def test_own_lines(self):
        """Lines of 200 bytes, notes, a call in the step that decides it, and one that commits nothing."""
        file = io.BytesIO()
        log = Log(Header.own(SPECIFICATION), file, watched=False)
        caller = log.caller()
        most, name = "x" * 196 + "\u00e4", "x" * 41
        with caller.step() as lines:
            lines.note("all at once")
            lines.here()
            place = sys._getframe().f_lineno - 1
            lines.note(most)
            lines.call("take", 5)
            lines.commit()
        caller.returns(1)
        caller.call(name, 4294967295, 4294967295, 4294967295)
        caller.returns(0)
        with caller.step() as lines:
            self.refuses(lambda: lines.note(most + "x"), f"a line of a log has more than 200 bytes: # {most}x")
            self.refuses(lambda: lines.note("two\nlines"), "a note has one line")
            refused = "a reply is from 0 to 18446744073709551614, and not 18446744073709551615"
            self.refuses(lambda: lines.returns(2**64 - 1), refused)
        log.finish()
        wanted = (
            f"{SPECIFICATION}# all at once\n# test_log.py:{place}\n# {most}\n0 call take 5\n0 commit\n0 return 1\n"
            f"0 call {name} 4294967295 4294967295 4294967295\n0 return 0\nend\n"
        )
        self.assertEqual(file.getvalue().decode(), wanted)
        with Log(Header(2, "tree", 1, 1), io.BytesIO(), watched=False).caller().step() as lines:
            self.refuses(lines.here, "notes are of version 3")

    def test_handles(self):
        log = Log(Header(1, "tree", 1, 2), io.BytesIO(), watched=False)
        first, second = log.caller(), log.caller()
        self.refuses(log.caller, "no caller is free: all 2 of the header are handed out")
        first.give_back()
        first.give_back()
        self.refuses(first.commit, "a step of a caller that is given back")
        self.assertEqual((log.caller().number, second.number), (0, 1))
        self.refuses(log.caller, "no caller is free: all 2 of the header are handed out")

    def test_handles_that_are_given_back_inside_a_call(self):
        """Its number isn't another thread's, whose call would then stand inside its own."""
        log = Log(Header(1, "tree", 1, 2), io.BytesIO(), watched=False)
        first, second = log.caller(), log.caller()
        first.call("insert", 5)
        first.give_back()
        first.give_back()
        refused = "no caller is free: all 2 of the header are handed out (given back inside a call: {})"
        self.refuses(log.caller, refused.format(1))
        second.call("insert", 5)
        with second.step() as lines:
            lines.entry("return 0")
        second.give_back()
        with log.caller() as third:
            self.assertEqual(third.number, 1)
            third.call("delete", 5)
            with third.step() as lines:
                lines.helping(0).returns(True)
        self.refuses(log.caller, refused.format(2))

    def test_refused_steps(self):
        file = io.BytesIO()
        log = Log(Header(1, "tree", 1, 1), file, watched=False)
        caller = log.caller()
        with self.assertRaisesRegex(LogError, "a step inside a step"), caller.step() as lines:
            lines.commit()
            caller.commit()
        longest = "x" * (64 - len("0 call "))
        caller.call(longest)
        self.refuses(lambda: caller.call(longest + "x"), f"a line of a log has more than 64 bytes: 0 call {longest}x")
        self.refuses(lambda: caller.call("delete", 5, -1), "an argument is from 0 to 4294967295, and not -1")
        self.refuses(lambda: caller.call("delete", 2**32), "an argument is from 0 to 4294967295, and not 4294967296")
        refused = "a reply is from 0 to 18446744073709551615, and not "
        self.refuses(lambda: caller.returns(-1), refused + "-1")
        self.refuses(lambda: caller.returns(2**64), refused + "18446744073709551616")
        with caller.step() as lines:
            self.refuses(lambda: lines.write(-1, 0), "a word is from 0 to 4294967295, and not -1")
            refused = "a value is from 0 to 9223372036854775807, and not "
            self.refuses(lambda: lines.write(0, -1), refused + "-1")
            self.refuses(lambda: lines.write(0, 2**63), refused + "9223372036854775808")
        log.finish()
        self.refuses(caller.commit, "a step of a log that is finished")
        self.refuses(log.finish, "a log is finished twice")
        self.assertEqual(file.getvalue().decode(), f"vyrd 1 tree 1 1\n0 commit\n0 call {longest}\nend\n")

    def test_a_block_that_raises_leaves_no_end(self):
        file = io.BytesIO()
        with self.assertRaises(ZeroDivisionError):
            with Log(Header(1, "tree", 1, 1), file, watched=False) as log:
                log.caller().commit()
                raise ZeroDivisionError
        self.assertEqual(file.getvalue(), b"vyrd 1 tree 1 1\n0 commit\n")

    def test_a_write_that_fails_is_said_at_the_end(self):
        log = Log(Header(1, "tree", 1, 1), Full(), watched=False)
        log.caller().commit()
        with self.assertRaisesRegex(OSError, "full"):
            log.finish()
        with self.assertRaises(OSError):
            Log(Header(1, "tree", 1, 1), "no/such/folder/log")

    def test_threads(self):
        """A buffer that is too small for two lines, threads that meet, and pauses by a seed."""
        file = io.BytesIO()
        log = Log(Header(1, "cache", 1, 8), file, seed=3, buffer=8, watched=False)

        def play():
            with log.caller() as caller:
                log.start_together(8)
                for _ in range(100):
                    with caller.step() as lines:
                        lines.observed("read", 0, reply=0)

        threads = [threading.Thread(target=play) for _ in range(8)]
        for thread in threads:
            thread.start()
        for thread in threads:
            thread.join()
        log.close()
        lines = file.getvalue().decode().splitlines()[1:]
        self.assertEqual(len(lines), 1600)
        for call, back in zip(lines[::2], lines[1::2]):
            self.assertEqual(call.replace("call read 0", "return 0"), back)

    def refuses(self, action, sentence):
        with self.assertRaises(LogError) as refused:
            action()
        self.assertEqual(str(refused.exception), sentence)


if __name__ == "__main__":
    unittest.main()
