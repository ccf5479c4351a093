"""What the tests of the scripts share: a folder for each test, scripts that are run in it, and checkers that are made up."""

import os
import subprocess
import sys
import tempfile
import unittest
from pathlib import Path
from unittest.mock import patch

sys.dont_write_bytecode = True
TOOLS = Path(__file__).resolve().parent.parent
SECONDS = 120  # in which each run has to end, on a machine with other work too
BUILT = ("crates/vyrd_program/out/vyrd_program", "out/vyrd_not_proved")

# An insert that wrote nothing: its commit on line 3 shows no 5. More may stand after line 4.
FAULT = "vyrd 1 multiset 1 1\n0 call insert 5\n0 commit\n0 return 1\n"
FAULT_ANSWER = "violation at line 3: view differs at key 5\n"
FAULT_EXPLAINED = """violation at line 3: view differs at key 5

The call
  caller 0: `insert 5`, called on line 2, committed on line 3, replied 1 on line 4

Key 5: the element 5
  at the start, both views show it not at all
  this call makes that once; the words show it not at all

Parts of the words that show key 5: none

Writes since the start that changed what the words show at key 5: none
  So a write is missing or changed nothing, or the commit stands at the wrong place.

It had written nothing by then

Commits before it that name 5: none
"""
LOOK = "0 call lookup 6\n0 return 0\n"


def program():
    """The program: the one that VYRD names, or one that is built in this repository, or None."""
    named = [os.environ["VYRD"]] if os.environ.get("VYRD") else [str(TOOLS.parent / path) for path in BUILT]
    return next((path for path in named if os.access(path, os.X_OK)), None)


PROGRAM, NO_PROGRAM = program(), "no program is built"


class ProgramTest(unittest.TestCase):
    """A test that asks the program by itself, without a script. It is skipped if there is none."""

    def setUp(self):
        if not PROGRAM:
            self.skipTest(NO_PROGRAM)
        taken = patch.dict(os.environ, {"VYRD": PROGRAM})
        taken.start()
        self.addCleanup(taken.stop)


class Said:
    """What a run said, and its status; that of a signal is negative."""

    def __init__(self, ran):
        self.out, self.error, self.status = ran.stdout.decode("latin-1"), ran.stderr.decode(), ran.returncode


class ScriptTest(unittest.TestCase):
    """A test with a folder of its own, in which scripts are run. There is no checker, if a test doesn't say which it takes."""

    def setUp(self):
        folder = tempfile.TemporaryDirectory()
        self.addCleanup(folder.cleanup)
        self.folder = Path(folder.name)
        self.environment = {**os.environ, "VYRD": str(self.folder / "no_checker"), "PYTHONDONTWRITEBYTECODE": "1"}

    def write(self, name, text):
        """A file of the folder, of text or of bytes, and its path."""
        path = self.folder / name
        path.write_bytes(text if isinstance(text, bytes) else text.encode("latin-1"))
        return str(path)

    def take_program(self):
        """Makes the program the checker. The test is skipped if there is none."""
        if not PROGRAM:
            self.skipTest(NO_PROGRAM)
        self.environment["VYRD"] = PROGRAM

    def checker(self, script):
        """Makes a shell script the checker."""
        path = self.write("checker", f"#!/bin/sh\n{script}\n")
        os.chmod(path, 0o755)
        self.environment["VYRD"] = path

    def checker_says(self, answer, status):
        """Makes a checker that reads the first bytes of its input, as one does whose verdict stands early."""
        self.checker(f"head -c 100 > /dev/null\nprintf '%s' '{answer}'\nexit {status}")

    def checker_says_of(self, status, **said):
        """Makes a checker that says a text under each form, as `check`, `explain` and `follow`, whatever its input is."""
        for form, text in said.items():
            self.write(f"said.{form}", text)
        self.checker(f'cat > /dev/null\ncat "${{0%/*}}/said.$1"\nexit {status}')

    def run_script(self, name, *words, given=b"", **options):
        """Runs a script of tools/ in the folder, with these bytes on standard input unless `stdin` says another."""
        if "stdin" not in options:
            options["input"] = given if isinstance(given, bytes) else given.encode("latin-1")
        options = {"stdout": subprocess.PIPE, "stderr": subprocess.PIPE, **options}
        command = [str(TOOLS / name), *words]
        ran = subprocess.run(command, cwd=self.folder, env=self.environment, timeout=SECONDS, check=False, **options)
        ran.stdout, ran.stderr = ran.stdout or b"", ran.stderr or b""
        return Said(ran)

    def assert_refused(self, said, sentence, status=64):
        """One sentence on standard error, nothing on standard output, and the status."""
        self.assertEqual((said.out, said.error, said.status), ("", sentence + "\n", status))


# A queue in slots with a specification of its own, up to the line `log`, and a run of it.
QUEUE = """vyrd 3 own 8 2
# slot i has its state in word 2i and its element in word 2i + 1
part 2
  shows w1 (if (w0 == 1) then 1 else 0)
list waiting
method enqueue x
  allow (reply == 1)
    append waiting x
    set [x] ([x] + 1)
method dequeue
  let front (first waiting)
  answer (if ((length waiting) == 0) then 0 else none)
  allow (((length waiting) > 0) and (reply == (front + 1)))
    drop first waiting
    set [front] ([front] - 1)
log
"""
QUEUE_RUN = """0 call enqueue 5
0 write 1 5
0 write 0 1
0 commit
0 return 1
1 call dequeue
# Main.java:61
1 write 0 0
1 commit
1 return 6
end
"""
