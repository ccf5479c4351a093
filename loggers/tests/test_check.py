"""The words of loggers/check, and what it says where a tool or the program that judges isn't there, or judges otherwise."""

import os
import shutil
import subprocess
import tempfile
import unittest
from pathlib import Path

CHECK = Path(__file__).resolve().parent.parent / "check"
NEEDED = "awk basename bash cat cmp cp dirname env grep head mktemp python3 rm sed sleep tail wc".split()


def run(*words, **variables):
    return subprocess.run([CHECK, *words], capture_output=True, text=True, env={**os.environ, **variables})


class Tests(unittest.TestCase):
    def test_help(self):
        done = run("--help")
        self.assertEqual((done.returncode, done.stderr), (0, ""))
        self.assertIn("loggers/check [c|cpp|rust|go|python|java]...", done.stdout)

    def test_misuse(self):
        for words in (["ada"], ["-x"], ["cpp", ""], ["--overhead", "ada"]):
            done = run(*words)
            self.assertEqual((done.returncode, done.stdout), (64, ""))
            self.assertEqual(done.stderr, f"check: no language of this folder: '{words[-1]}'\n")

    def test_no_program(self):
        done = run("python", VYRD="/no/such/program")
        self.assertEqual((done.returncode, done.stdout), (70, ""))
        self.assertEqual(done.stderr, "check: the program can't be run: /no/such/program\n")

    def test_what_is_not_installed_is_skipped_by_name(self):
        with tempfile.TemporaryDirectory() as folder:
            for command in NEEDED:
                os.symlink(shutil.which(command), Path(folder, command))
            done = run("c", "cpp", "rust", "go", "java", VYRD="true", PATH=folder)
        self.assertEqual(done.returncode, 0)
        reasons = {
            "c": "no C compiler",
            "cpp": "no C++ compiler",
            "rust": "no cargo or no rustc",
            "go": "no go",
            "java": "no javac or no java",
        }
        skipped = "".join(f"skipped: {language}, since there is {reason}\n" for language, reason in reasons.items())
        self.assertEqual(done.stdout, skipped + "loggers: 0 passed, 0 failed, 5 skipped\n")

    def test_a_program_that_judges_otherwise_is_a_failure(self):
        with tempfile.TemporaryDirectory() as folder:
            accepts = Path(folder, "accepts")
            accepts.write_text("#!/bin/sh\ncat >/dev/null\necho 'accepted: 0 entries'\n")
            accepts.chmod(0o755)
            done = run("python", VYRD=os.path.relpath(accepts))
        self.assertEqual(done.returncode, 1)
        self.assertIn("failed: python/multiset broken: status 0 and 'accepted: 0 entries', wanted 1 and 'violation", done.stdout)
        self.assertNotIn("failed: python/multiset correct", done.stdout)


if __name__ == "__main__":
    unittest.main()
