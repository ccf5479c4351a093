"""What the tests of scripts share: a folder of their own for each test, and the scripts run in it."""

import importlib.util
import os
import subprocess
import tempfile
import unittest
from importlib.machinery import SourceFileLoader
from pathlib import Path

EXAMPLES = Path(__file__).resolve().parent.parent
SECONDS = 60


def module_of(script):
    """A script in Python as a module."""
    loader = SourceFileLoader(script.name, str(script))
    module = importlib.util.module_from_spec(importlib.util.spec_from_loader(script.name, loader))
    loader.exec_module(module)
    return module


class ScriptTest(unittest.TestCase):
    """A test in an empty folder, `self.folder`."""

    def setUp(self):
        kept = tempfile.TemporaryDirectory()
        self.addCleanup(kept.cleanup)
        self.folder = Path(kept.name)

    def file(self, name, content):
        """A file in the folder."""
        path = self.folder / name
        path.parent.mkdir(parents=True, exist_ok=True)
        path.write_bytes(content if isinstance(content, bytes) else content.encode())
        return path

    def program(self, name, *lines):
        """A program in the folder, of lines for the shell."""
        path = self.file(name, "\n".join(["#!/bin/sh", *lines, ""]))
        path.chmod(0o755)
        return path

    def run_script(self, script, *words, stdin=b"", vyrd=None, **others):
        """Runs a script with these words in the folder."""
        environment = {name: value for name, value in os.environ.items() if name not in ("VYRD", "VYRD_CHECKER")}
        environment.update(others, **({"VYRD": str(vyrd)} if vyrd else {}))
        command = [str(script if Path(script).is_absolute() else EXAMPLES / script), *words]
        source = {"input": stdin} if isinstance(stdin, bytes) else {"stdin": stdin}
        return subprocess.run(
            command, cwd=self.folder, env=environment, capture_output=True, timeout=SECONDS, check=False, **source
        )

    def run_shell(self, line):
        """Runs a line of bash in the folder, in which $examples is the folder of the scripts."""
        environment = {**os.environ, "examples": str(EXAMPLES)}
        return subprocess.run(
            ["bash", "-c", line], cwd=self.folder, env=environment, capture_output=True, timeout=SECONDS, check=False
        )

    def assert_ended(self, ran, status, printed, told):
        """The status, all of standard output, and the sentences of standard error: what each of its lines contains."""
        self.assertEqual((ran.returncode, ran.stdout), (status, printed), ran.stderr)
        lines = ran.stderr.decode().splitlines()
        self.assertEqual(len(lines), len(told), lines)
        for line, part in zip(lines, told):
            self.assertIn(part, line)
