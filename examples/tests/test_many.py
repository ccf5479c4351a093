"""Tests of the task that all engines of many/ share, with a checker that says what the first line of a log says."""

import unittest

from scripts import ScriptTest

ACCEPTED = "accepted: 0 entries, 0 commits, 0 observers"
VIOLATION = "violation at line 3: reply 1 not allowed"
MALFORMED = "malformed at line 1: no end"

# `check` prints the log and ends with the status of what it says. `batch` has an answer where $BATCH is the text of one.
CHECKER = """
case $1 in
    check) read -r line; [ -z "$line" ] || echo "$line"
        case $line in accepted*) exit 0 ;; violation*) exit 1 ;; malformed*) exit 2 ;; esac; exit 134 ;;
    batch) cat >/dev/null; [ -z "$BATCH" ] && exit "${BATCH_STATUS-6}"; cat "$BATCH"; exit 1 ;;
esac
"""


class Many(ScriptTest):
    def setUp(self):
        super().setUp()
        self.checker = self.program("checker", CHECKER)
        self.logs = {"a": ACCEPTED, "b c": VIOLATION, "-d": MALFORMED}
        for name, line in self.logs.items():
            self.file(name, f"{line}\n")
        self.file("names", "".join(f"{name}\n" for name in self.logs))
        self.rows = "".join(f"{name}\t{status}\t{line}\n" for status, (name, line) in enumerate(self.logs.items()))

    def run_many(self, script, *words, **others):
        return self.run_script(f"many/{script}", *words, **{"vyrd": self.checker, **others})

    def batch(self, *lines):
        """What `batch` is to answer."""
        text = "".join(f"log {place}: {line}\n" for place, line in enumerate(lines))
        return str(self.file("batch", f"{text}batch: {len(lines)} logs\n"))

    def rows_of(self, part):
        rows = self.folder / "all" / "rows" / part
        return rows.read_text() if rows.exists() else None

    def test_rows_of_a_batch(self):
        self.assert_ended(self.run_many("parts_of", "names", "all"), 0, b"", [])
        self.assert_ended(self.run_many("judge", "all/parts/000001", BATCH=self.batch(*self.logs.values())), 0, b"", [])
        self.assertEqual(self.rows_of("000001"), self.rows)
        self.assert_ended(self.run_many("judge", "all/parts/000001", vyrd="/missing"), 0, b"", [])

    def test_batch_without_an_answer(self):
        """The logs are then judged one by one, even if the answer has a verdict too few or one that is none."""
        answers = [self.batch(ACCEPTED, VIOLATION), self.batch(ACCEPTED, VIOLATION, "x"), ""]
        for answer in answers:
            self.run_many("parts_of", "names", "all")
            (part,) = (path.name for path in (self.folder / "all" / "parts").iterdir())
            ran = self.run_many("judge", f"all/parts/{part}", BATCH=answer)
            self.assert_ended(ran, 0, b"", ["each log is judged by itself"])
            self.assertEqual(self.rows_of(part), self.rows)
            (self.folder / "all" / "rows" / part).unlink()

    def test_log_without_a_verdict(self):
        self.file("a", "\n")
        self.run_many("parts_of", "names", "all")
        ran = self.run_many("judge", "all/parts/000001")
        self.assert_ended(ran, 70, b"", ["each log is judged by itself", "no verdict about 'a'"])
        ran = self.run_many("table_of", "names", "all")
        self.assert_ended(ran, 70, b"3 logs: 0 accepted, 1 violations, 1 malformed, 1 without a verdict\n", [])
        self.assertEqual((self.folder / "all" / "missing").read_text(), "a\n")

    def test_lost_program_leaves_no_rows(self):
        self.run_many("parts_of", "names", "all")
        self.assert_ended(self.run_many("judge", "all/parts/000001", vyrd="/missing"), 255, b"", ["/missing can't be run"])
        for status in ("126", "127", "255"):
            ran = self.run_many("judge", "all/parts/000001", BATCH_STATUS=status)
            self.assert_ended(ran, 255, b"", [f"ended with the status {status}"])
        self.assertIsNone(self.rows_of("000001"))

    def test_names(self):
        self.file("names", "a\nmissing\na\n")
        self.assert_ended(self.run_many("parts_of", "names", "all"), 0, b"", ["'missing' can't be read"])
        self.assertEqual((self.folder / "all" / "parts" / "000001").read_text(), "a\n")
        self.file("names", "a\tb\n")
        self.assert_ended(self.run_many("parts_of", "names", "all"), 64, b"", ["the tab"])
        self.assert_ended(self.run_many("parts_of", "none", "all"), 64, b"", ["none can't be read"])

    def test_table(self):
        for statuses, status in (("0", 0), ("02", 2), ("021", 1)):
            rows = dict(zip("021", self.rows_by_status()))
            self.file("list", "".join(f"{row.split(chr(9))[0]}\n" for row in map(rows.get, statuses)))
            self.file("all/rows/000001", self.rows)
            self.assertEqual(self.run_many("table_of", "list", "all").returncode, status)
            self.assertEqual((self.folder / "all" / "table").read_text(), "".join(map(rows.get, statuses)))
        self.file("all/rows/000002", "a\t2\tmalformed at line 1: no end\n")
        ran = self.run_many("table_of", "names", "all")
        self.assert_ended(ran, 70, b"3 logs: 0 accepted, 1 violations, 1 malformed, 1 without a verdict\n", ["two rows"])

    def rows_by_status(self):
        accepted, violation, malformed = self.rows.splitlines(keepends=True)
        return accepted, malformed, violation

    def test_engine(self):
        ran = self.run_many("by_xargs", "names", "all", BYTES="1")
        self.assertEqual((ran.returncode, ran.stdout), (1, b"3 logs: 1 accepted, 1 violations, 1 malformed, 0 without a verdict\n"))
        self.assertEqual((self.folder / "all" / "table").read_text(), self.rows)
        self.assertEqual(len(list((self.folder / "all" / "parts").iterdir())), 3)

    def test_misuse(self):
        for script in ("parts_of", "judge", "table_of", "by_xargs"):
            self.assertEqual(self.run_many(script).returncode, 64)
            self.assertEqual(self.run_many(script, "--help").returncode, 0)
        for words in (["names", "all", "x"], ["names", "all", "1", "x"], ["missing", "all"]):
            self.assert_ended(self.run_many("by_xargs", *words), 64, b"", [""])


if __name__ == "__main__":
    unittest.main()
