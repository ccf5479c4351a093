"""Tests of what all scripts here do with their words, and of those that compare, with checkers that answer right and wrong."""

import shutil
import sys
import unittest

from scripts import EXAMPLES, ScriptTest

WITHOUT_WORDS = ["all", "compare", "caught", "flat", "own/check", "no_memory/try"]
ASKING = ["compare", "explained", "caught", "flat", "own/check", "real/check", "no_memory/try", "documents", "measure"]
USAGE = "usage: vyrd check | step [--log|--history] | run [--log|--history] | gen N | movers | batch | explain | follow"
VIOLATION = "violation at line 7: reply 1 not allowed"


class Words(ScriptTest):
    def test_help(self):
        for script in [*WITHOUT_WORDS, "explained", "real/check", "documents", "measure", "batch_of", "rows_of"]:
            ran = self.run_script(script, "--help")
            self.assert_ended(ran, 0, ran.stdout, [])
            self.assertIn(script.split("/")[-1].encode(), ran.stdout)
            self.assertNotIn(b"set -", ran.stdout)

    def test_misuse(self):
        for script in WITHOUT_WORDS:
            self.assert_ended(self.run_script(script, "-x"), 64, b"", ["'-x'"])
        for words in (["ada"], ["-x"], ["cpp", ""]):
            self.assert_ended(self.run_script("real/check", *words), 64, b"", [f"'{words[-1]}'"])
        for words in ([], ["0"], ["1x"], ["10000"]):
            self.assert_ended(self.run_script("real/check", "--runs", *words), 64, b"", ["--runs wants a number"])
        self.assert_ended(self.run_script("measure", "tree", "queue"), 64, b"", ["'queue' is no structure"])
        self.assert_ended(self.run_script("documents", "missing.md"), 64, b"", ["missing.md"])

    def test_program_that_isnt_there(self):
        for script in ASKING:
            self.assert_ended(self.run_script(script, vyrd="/missing"), 70, b"", ["can't be run: /missing"])


class Compare(ScriptTest):
    USAGE = "[ \"$*\" = check ] || {{ echo '{}'; exit 3; }}"
    NOT_BUILT = ["the smaller program is not built"]

    def compare(self, table, *answer, smaller=()):
        """Runs a copy of compare, with a table of its own and a checker that answers `check` so. There is a smaller one too, if
        what it answers is given."""
        for name in ("compare", "common.sh"):
            shutil.copy(EXAMPLES / name, self.folder)
        self.file("table.tsv", table)
        self.file("a.log", "")
        checker = self.program("checker", self.USAGE.format(USAGE), *answer)
        others = {"VYRD_CHECKER": str(self.program("smaller", *smaller))} if smaller else {}
        return self.run_script(self.folder / "compare", vyrd=checker, **others)

    def test_output_and_status_are_compared(self):
        table = f"a.log\tcheck\t1\t{VIOLATION}\n"
        right = self.compare(table, f"echo '{VIOLATION}'", "exit 1")
        self.assert_ended(right, 0, b"examples: 22 passed, 0 failed\n", self.NOT_BUILT)
        for wrong in (f"echo '{VIOLATION}'; exit 0", f"printf '{VIOLATION}'; exit 1", "echo accepted; exit 1", "exit 70"):
            ran = self.compare(table, wrong)
            self.assertEqual(ran.returncode, 1)
            self.assertIn(b"examples: 21 passed, 1 failed\n", ran.stdout)

    def test_the_smaller_program_is_compared(self):
        table = f"a.log\tcheck\t1\t{VIOLATION}\na.log\texplain\t3\t{USAGE}\n"
        answer, usage = f"echo '{VIOLATION}'; exit 1", self.USAGE.format("usage: vyrd_checker check")
        right = self.compare(table, answer, smaller=(usage, answer))
        self.assert_ended(right, 0, b"examples: 32 passed, 0 failed\n", [])
        for wrong in ((usage, "exit 1"), (usage, f"echo '{VIOLATION}'"), (self.USAGE.format(USAGE), answer)):
            ran = self.compare(table, answer, smaller=wrong)
            self.assertEqual(ran.returncode, 1)
            self.assertNotIn(b" 0 failed\n", ran.stdout)


class Caught(ScriptTest):
    def caught(self, hunt, check):
        """Runs a copy of caught, with a hunt and a checker of its own."""
        for name in ("caught", "common.sh"):
            self.file(f"examples/{name}", (EXAMPLES / name).read_bytes()).chmod(0o755)
        self.program("tools/hunt", *hunt)
        return self.run_script(self.folder / "examples/caught", vyrd=self.program("checker", "cat >judged", *check))

    def test_answer_is_judged_again(self):
        hunt = ["echo 'a log'", f"echo '{VIOLATION}'"]
        again = [f"echo '{VIOLATION}'", "exit 1"]
        self.assert_ended(self.caught(hunt, again), 0, f"caught: {VIOLATION}\n".encode(), [])
        self.assertEqual((self.folder / "judged").read_text(), "a log\n")
        for wrong in (["echo accepted", "exit 0"], [f"echo '{VIOLATION}'"], ["exit 1"]):
            self.assertEqual(self.caught(hunt, wrong).returncode, 1)

    def test_hunt_without_an_answer(self):
        again = ["exit 1"]
        for hunt in ([], ["echo 'a log'"], ["exit 70"], ["exit 3"]):
            self.assertEqual(self.caught(hunt, again).returncode, 1)


class Flat(ScriptTest):
    RIGHT = "accepted: 6000000 entries, 800000 commits, 1200000 observers"

    def flat(self, *answer):
        return self.run_script("flat", vyrd=self.program("checker", "cat >/dev/null", *answer))

    def test_each_answer_has_its_numbers(self):
        self.assert_ended(self.flat(f"echo '{self.RIGHT}'"), 0, b"flat: 3 passed, 0 failed\n", [])
        for wrong in ("echo 'accepted: 5999999 entries, 800000 commits, 1200000 observers'", "exit 6"):
            ran = self.flat(wrong)
            self.assertEqual(ran.returncode, 1)
            self.assertIn(b"flat: 0 passed, 3 failed\n", ran.stdout)

    def test_memory_is_limited(self):
        for size, passed in (1000, 3), (40000000, 0):
            ran = self.flat(f"{sys.executable} -c 'x = bytes({size}); print(\"{self.RIGHT}\")'")
            self.assertIn(f"flat: {passed} passed, {3 - passed} failed\n".encode(), ran.stdout)


class OwnStructures(ScriptTest):
    def test_answer_of_every_run_counts(self):
        """A checker that accepts all: the runs of the broken variants are those that fail."""
        accepts = self.program("checker", "cat >/dev/null", "echo 'accepted: 0 entries, 0 commits, 0 observers'")
        # Without compilers the Python one is left, with five runs of each variant, and the recipes, with three runs each.
        tools = "bash dirname mktemp rm cat python3 env sed"
        (self.folder / "tools").mkdir()
        for tool in tools.split():
            (self.folder / "tools" / tool).symlink_to(shutil.which(tool))
        ran = self.run_script("own/check", vyrd=accepts, PATH=str(self.folder / "tools"))
        self.assertEqual(ran.returncode, 1)
        self.assertIn(b"own structures: 21 passed, 13 failed, 2 skipped\n", ran.stdout)


class RealStructures(ScriptTest):
    def check(self, checker, *words, **others):
        """Runs it with few tools, of which `go` makes programs that write an empty log, and nothing else can build any."""
        tools = self.folder / "tools"
        for tool in "bash dirname mktemp rm cat sed env timeout mkdir chmod".split():
            (tools / tool).parent.mkdir(exist_ok=True)
            (tools / tool).symlink_to(shutil.which(tool))
        build = 'mkdir "$3" && for name in queue dictionary; do printf "#!/bin/sh\\n%s\\n" "$RUN" >"$3$name"; done'
        self.program("tools/go", "[ $1 = build ] || exit 0", build, 'chmod +x "$3"*')
        accepts = self.program("checker", "cat >/dev/null", *checker)
        return self.run_script("real/check", *words, vyrd=accepts, PATH=str(tools), **{"RUN": "echo end", **others})

    def test_what_is_not_installed_is_skipped_by_name(self):
        ran = self.check(["exit 1"], "cpp", "rust", "java")
        said = b"skipped: cpp, since there is no C++ compiler\nskipped: rust, since there is no cargo or no rustc\n"
        said += b"skipped: java, since there is no javac, java or jar\nreal structures: 0 passed, 0 failed, 3 skipped\n"
        self.assert_ended(ran, 0, said, [])

    def test_broken_structure_that_is_accepted_is_a_failure(self):
        ran = self.check(["echo 'accepted: 0 entries, 0 commits, 0 observers'"], "go")
        self.assertEqual(ran.returncode, 1)
        self.assertIn(b"failed: go/queue aside: 0 runs of 30 are 'violation at line ..'\n", ran.stdout)
        self.assertIn(b"real structures: 2 passed, 3 failed, 0 skipped\n", ran.stdout)

    def test_correct_structure_that_is_not_accepted_is_a_failure(self):
        ran = self.check([f"echo '{VIOLATION}'", "exit 1"], "--runs", "2", "go")
        self.assertEqual(ran.returncode, 1)
        self.assertIn(f"failed: go/queue correct, seed 1: '{VIOLATION}'\n".encode(), ran.stdout)
        self.assertIn(f"go/queue aside                 2 of 2, as {VIOLATION}\n".encode(), ran.stdout)
        self.assertIn(b"real structures: 3 passed, 6 failed, 0 skipped\n", ran.stdout)

    def test_run_that_fails_is_a_failure(self):
        ran = self.check(["echo 'accepted: 0 entries, 0 commits, 0 observers'"], "--runs", "1", "go", RUN="exit 3")
        self.assertEqual(ran.returncode, 1)
        self.assertIn(b"failed: go/queue correct, seed 1: 'its status isn't 0, or it took longer than 300 seconds'\n", ran.stdout)


@unittest.skipUnless(shutil.which("/usr/bin/time"), "GNU time isn't here")
class Measure(ScriptTest):
    def test_run_that_isnt_accepted(self):
        ran = self.run_script("measure", vyrd=self.program("checker", "exit 6"))
        self.assertEqual(ran.returncode, 1)
        self.assertEqual(ran.stderr, b"measure: 'gen 200000' of none ended with the status 6, and isn't accepted\n")


class All(ScriptTest):
    def test_it_runs_the_rest_after_a_failure(self):
        """A copy in which each script notes that it ran, and one of them fails."""
        for name in ("all", "common.sh"):
            self.file(f"examples/{name}", (EXAMPLES / name).read_bytes()).chmod(0o755)
        scripts = ["examples/compare", "examples/explained", "examples/unproved", "examples/own/check", "examples/real/check"]
        scripts += ["loggers/check", "specifications/check", "specifications/same_verdicts", "tools/check", "examples/caught"]
        scripts += ["examples/flat", "examples/documents", "tools/tests/run", "tools/tests/browser", "examples/many/check"]
        for script in scripts:
            self.program(script, f'echo {script} >>"{self.folder}/ran"', "exit 0")
        for tests in ("examples/tests", "examples/reference/tests", "specifications/tests", "loggers/tests"):
            (self.folder / tests).mkdir(parents=True)
        for failing, status in ((None, 0), (scripts[0], 1), (scripts[-1], 1)):
            if failing:
                self.program(failing, f'echo {failing} >>"{self.folder}/ran"', "exit 3")
            (self.folder / "ran").write_text("")
            self.assertEqual(self.run_script(self.folder / "examples/all").returncode, status)
            self.assertEqual((self.folder / "ran").read_text().split(), scripts)


if __name__ == "__main__":
    unittest.main()
