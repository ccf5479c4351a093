"""Many runs in a test: what is accepted, what isn't, and what is said then.

The variable VYRD names the program, and VYRD_EXPLAIN what explains its answers.
"""

import os
import sys
import tempfile
import threading
import unittest
import unittest.mock
from pathlib import Path

sys.path.insert(0, str(Path(__file__).resolve().parent.parent))
from multiset import Multiset, interrupted, together  # noqa: E402
from vyrd_check import RunsFailed, check_runs  # noqa: E402
from vyrd_log import Header  # noqa: E402

HEADER = Header(1, "multiset", 1, 4)


def correct(seed, log):
    together(log, Multiset(), 4, seed)


def broken(seed, log):
    interrupted(log)


class Tests(unittest.TestCase):
    def setUp(self):
        folder = tempfile.TemporaryDirectory()
        self.addCleanup(folder.cleanup)
        self.folder = Path(folder.name)

    def test_a_correct_structure_passes(self):
        seeds = []
        check_runs(lambda seed, log: (seeds.append(seed), correct(seed, log)), HEADER, folder=self.folder, seed=5)
        self.assertEqual(seeds, list(range(5, 25)))
        self.assertEqual(list(self.folder.iterdir()), [])

    def test_a_broken_one_fails_with_what_explain_says(self):
        said = self.fails(lambda seed, log: broken(seed, log) if seed == 3 else correct(seed, log))
        self.assertIn("run 3 of 20, with seed 3: violation at line 10: view differs at key 6\n", said)
        self.assertIn("\n  line 8: caller 0, slot 0 value 6 -> 5; shown once -> not at all\n", said)
        self.assertEqual(self.kept(3).splitlines()[-1], "end")

    def test_what_the_body_raises_is_said(self):
        def body(seed, log):
            log.caller().call("insert", 5)
            raise ValueError("by the test")

        said = self.fails(body)
        self.assertIn("run 1 of 20, with seed 1: the body raised ValueError: by the test; malformed at line 3: no end\n", said)
        self.assertEqual(self.kept(1), "vyrd 1 multiset 1 4\n0 call insert 5\n")

    def test_what_a_thread_of_the_body_raises_is_said(self):
        """A thread whose exception nobody catches, and what becomes of the hook that was there before."""

        def start(seed, log, error=AssertionError):
            def use():
                with log.caller() as caller:
                    caller.call("insert", 5)
                    if seed == 2:
                        raise error("by the test")
                    caller.commit()
                    caller.returns(False)

            thread = threading.Thread(target=use)
            thread.start()
            return thread

        def raises(seed, log):
            start(seed, log).join()
            raise ValueError("by the body")

        def hangs(seed, log):
            start(seed, log)
            log.start_together(2)

        hooked = []
        hook = unittest.mock.patch("threading.excepthook", lambda arguments: hooked.append(str(arguments.exc_value)))
        with hook as before:
            said = self.fails(lambda seed, log: start(seed, log).join())
            fault = "a thread of the body raised AssertionError: by the test; "
            self.assertIn(f"run 2 of 20, with seed 2: {fault}malformed at line 3: no end\nThe log is kept: ", said)
            self.assertEqual(self.kept(2), "vyrd 1 multiset 1 4\n0 call insert 5\n")
            self.assertIn(f"with seed 2: {fault}the body raised ValueError: by the body; ", self.fails(raises, seed=2))
            late = "the body hasn't returned after 1 seconds; "
            self.assertIn(f"with seed 2: {late}{fault}malformed at line 3: no end\n", self.fails(hangs, seed=2, seconds=1))
            self.assertEqual(hooked, 3 * ["by the test"])
            self.assertIs(threading.excepthook, before)
            said = self.fails(lambda seed, log: start(seed, log, SystemExit).join(), seed=2)
            self.assertIn("with seed 2: malformed at line 3: call not returned\n", said)

    def test_a_run_that_logs_nothing_fails(self):
        def body(seed, log):
            with log.caller().step():
                pass

        said = self.fails(body)
        self.assertIn("run 1 of 20, with seed 1: the run logged nothing; accepted: 0 entries, 0 commits, 0 observers\n", said)
        self.assertEqual(self.kept(1), "vyrd 1 multiset 1 4\nend\n")  # a step without a line writes nothing

    def test_a_body_that_hangs_is_given_up(self):
        go_on = threading.Event()
        self.addCleanup(go_on.set)

        def body(seed, log):
            log.caller().call("insert", 5)
            go_on.wait()

        said = self.fails(body, seconds=2)
        self.assertIn("with seed 1: the body hasn't returned after 2 seconds; malformed at line 3: no end\n", said)
        self.assertEqual(self.kept(1), "vyrd 1 multiset 1 4\n0 call insert 5\n")

    def test_a_program_that_is_not_there(self):
        self.assertEqual(self.fails(correct, program="/no/vyrd"), "the program that judges the logs can't be run: /no/vyrd")
        with unittest.mock.patch.dict(os.environ):
            del os.environ["VYRD"]
            said = "no program judges the logs: the variable VYRD or the option `program` is to name it"
            self.assertEqual(self.fails(correct), said)

    def test_a_program_that_gives_no_verdict(self):
        said = self.fails(correct, program="false", explain="/no/explain")
        self.assertIn("false gave no verdict, ended with status 1, and said: \n", said)
        self.assertIn("\nNothing explains it: there is no /no/explain", said)

    def fails(self, body, **options):
        with self.assertRaises(RunsFailed) as failed:
            check_runs(body, HEADER, folder=self.folder, **options)
        return str(failed.exception)

    def kept(self, seed):
        return (self.folder / f"{seed}.log").read_text()


if __name__ == "__main__":
    unittest.main()
