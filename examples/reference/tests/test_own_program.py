"""Specifications and logs of version 3 that chance makes up: the reference, lint, explain and the program agree.

The program is the one that VYRD names, or the one that is built in this repository. If there is none, its tests are skipped.
"""

import contextlib
import io
import random
import subprocess
import sys
import tempfile
import unittest
from importlib.machinery import SourceFileLoader
from importlib.util import module_from_spec, spec_from_loader
from pathlib import Path

REFERENCE = Path(__file__).resolve().parent.parent
sys.path[:0] = [str(REFERENCE), *(str(REFERENCE.parent.parent / folder) for folder in ("tools", "tools/tests"))]

import command
from explanation import explain
from logtext import Log
from own_judge import Text, answer_to
from own_samples import sample, spoilt
from support import PROGRAM, SECONDS, TOOLS, ProgramTest

WITH_PROGRAM, SAID, ALONE = 100, 60, 400  # how many samples there are; each is taken as it is and spoilt


def script(name):
    """A script of tools/ as a module, which isn't run."""
    loader = SourceFileLoader(f"script_{name}", str(TOOLS / name))
    module, runs = module_from_spec(spec_from_loader(loader.name, loader)), command.run
    command.run = lambda main: None
    try:
        loader.exec_module(module)
    finally:
        command.run = runs
    return module


def texts(seed, count):
    """Right and spoilt logs of version 3."""
    chance = random.Random(seed)
    for _ in range(count):
        text = sample(chance)
        yield text
        text = spoilt(chance, text)
        if text.startswith("vyrd 3 own "):
            yield text


class Program(ProgramTest):
    def test_the_program_says_of_each_log_what_the_definitions_say(self):
        logs = [text.encode("latin-1") for text in texts(1, WITH_PROGRAM)]
        batch = b"batch\n" + b"".join(b"log %d\n%s" % (len(log), log) for log in logs) + b"end\n"
        ran = subprocess.run([PROGRAM, "batch"], input=batch, capture_output=True, timeout=SECONDS, check=False)
        answers = [line.partition(": ")[2] for line in ran.stdout.decode().splitlines()[:-1]]
        self.assertEqual(len(answers), len(logs))
        for log, answer in zip(logs, answers):
            self.assertEqual(answer, answer_to(log), log.decode("latin-1"))


class Lint(unittest.TestCase):
    def test_it_finds_the_first_fault_of_a_text_and_none_in_others(self):
        lint = script("lint")
        for text in texts(2, ALONE):
            data = text.encode("latin-1")
            found = list(lint.faults_of(io.BufferedReader(io.BytesIO(data)), "a sample"))
            starts = [line for line, fault in found if str(fault).startswith("start stands for no state")]
            lines = [line for line, fault in found if not str(fault).startswith("start stands for no state")]
            fault, answer = Text(text).fault, answer_to(data)
            self.assertEqual(min(lines, default=None), fault and fault[0], text)
            if starts:
                self.assertEqual(answer, f"malformed at line {starts[0]}: start stands for no state", text)
            elif not fault:
                self.assertEqual(found, [], text)


class Explain(ProgramTest):
    def test_it_and_lanes_have_something_to_say_of_each_log(self):
        lanes = script("lanes")
        for text in texts(3, SAID):
            data = text.encode("latin-1")
            with tempfile.TemporaryFile(buffering=0) as file, contextlib.redirect_stdout(io.StringIO()) as said:
                file.write(data)
                log = Log(file, "a sample", answer_to(data))
                explain(log)
                lanes.draw_text(log, lanes.Drawing(log, None, None, lanes.Texts(log, True)))
                self.assertIn(log.answer, said.getvalue(), text)


if __name__ == "__main__":
    unittest.main()
