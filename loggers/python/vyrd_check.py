"""Runs a body many times in a test and lets `vyrd check` judge each log. Copy this module with vyrd_log.py; it needs Python 3.8.

    def test_my_structure():
        def body(seed, log):
            ...  # makes the structure, and lets threads use it; each thread has a caller of the log

        check_runs(body, Header(1, "multiset", 1, 4), runs=20)

It is for any test runner: what it raises is an AssertionError.
"""

import os
import shutil
import subprocess
import tempfile
import threading
from pathlib import Path

from vyrd_log import Log

__all__ = ["RunsFailed", "check_runs"]

VERDICTS = {0: "accepted: ", 1: "violation at line ", 2: "malformed at line "}


class RunsFailed(AssertionError):
    """A run whose log isn't accepted, whose body failed, or that can't be judged."""


def check_runs(body, header, *, runs=20, seed=1, seconds=60, folder=None, program=None, explain=None, **options):
    """Calls `body(seed, log)` so many times, and lets the program judge each log.

    Each run has a log of its own, in a file of `folder`, with this header and these options of Log, and the next seed, from
    `seed` on. The body lets the threads that it starts end, and doesn't finish the log: that is done when it has returned. A
    log that is accepted is removed.

    `program` is the one that judges; without it the variable VYRD names it. `explain` is what says more of a log that isn't
    accepted; without it the variable VYRD_EXPLAIN, or else `tools/explain` beside the program. `folder` is made if it isn't
    there; without one it is a new one in the system's folder for temporary files.

    Raises RunsFailed at the first run whose log isn't accepted or has no entry, whose body raises, or whose body hasn't returned
    after so many seconds. The log is then kept, and judged as it is. A body that doesn't return goes on in its thread, which is a
    daemon.

    While a body runs, what any thread raises and nobody catches counts as raised by the body. It is found by
    `threading.excepthook`, and the hook that was there before is still called. So what a Future keeps isn't seen until somebody
    asks for its result.
    """
    __tracebackhide__ = True  # pytest shows the test's own line
    judge = _Judge(program, explain)
    kept = Path(folder) if folder is not None else Path(tempfile.mkdtemp(prefix="vyrd_"))
    kept.mkdir(parents=True, exist_ok=True)
    for number in range(runs):
        path = kept / f"{seed + number}.log"
        fault, cause = _run(body, seed + number, Log(header, path, seed=seed + number, **options), seconds)
        verdict = judge.verdict(path)
        if not fault and verdict.startswith("accepted: 0 entries"):
            fault = "the run logged nothing"
        if fault or not verdict.startswith("accepted: "):
            said = f"{fault}; {verdict}" if fault else verdict
            place = f"run {number + 1} of {runs}, with seed {seed + number}"
            raise RunsFailed(f"{place}: {said}\nThe log is kept: {path}\n\n{judge.explanation(path)}") from cause
        path.unlink()
    if folder is None:
        kept.rmdir()


def _run(body, seed, log, seconds):
    """Calls the body once, and says what went wrong: a sentence, or nothing, and the exception, or None."""
    raised = []

    def play():
        try:
            body(seed, log)
        except BaseException as error:  # whatever it is, it belongs to the thread that waits
            raised.append(("the body", error))

    thread = threading.Thread(target=play, name="vyrd_check", daemon=True)
    with _Threads(lambda error: raised.append(("a thread of the body", error))):
        thread.start()
        thread.join(seconds)
    faults = [f"{who} raised {type(error).__name__}: {error}" for who, error in raised]
    if thread.is_alive():
        log.flush()
        faults = [f"the body hasn't returned after {seconds} seconds", *faults]
    elif faults:
        log.close()
    else:
        log.finish()
    return "; ".join(faults[:2]), raised[0][1] if raised else None


class _Threads:
    """In its `with` statement, says what threads raise. Of several at a time each may have started the thread."""

    _lock = threading.Lock()
    _all = []
    _before = None

    def __init__(self, say):
        self._say = say

    def __enter__(self):
        with self._lock:
            if not self._all:
                _Threads._before = threading.excepthook
                threading.excepthook = _Threads._take
            self._all.append(self)

    def __exit__(self, kind, value, trace):
        with self._lock:
            self._all.remove(self)
            if not self._all:
                threading.excepthook = _Threads._before

    @staticmethod
    def _take(arguments):
        with _Threads._lock:
            asked, before = _Threads._all[:], _Threads._before
        if arguments.exc_type is not SystemExit:  # which is how a thread ends itself
            for one in asked:
                one._say(arguments.exc_value)
        before(arguments)


class _Judge:
    """The program, and what explains its answers."""

    def __init__(self, program, explain):
        named = program or os.environ.get("VYRD")
        if not named:
            raise RunsFailed("no program judges the logs: the variable VYRD or the option `program` is to name it")
        self._program = shutil.which(named)
        if not self._program:
            raise RunsFailed(f"the program that judges the logs can't be run: {named}")
        beside = Path(self._program).resolve().parent / "tools" / "explain"
        self._explain = Path(explain or os.environ.get("VYRD_EXPLAIN") or beside)

    def verdict(self, path):
        with open(path, "rb") as log:
            done = subprocess.run([self._program, "check"], stdin=log, capture_output=True, check=False)
        said = done.stdout.decode(errors="replace").strip()
        if said.startswith(VERDICTS.get(done.returncode, "\n")):
            return said
        told = (said + " " + done.stderr.decode(errors="replace").strip()).strip()
        return f"{self._program} gave no verdict, ended with status {done.returncode}, and said: {told}"

    def explanation(self, path):
        if not self._explain.is_file():
            return f"Nothing explains it: there is no {self._explain}"
        environment = {**os.environ, "VYRD": self._program}
        done = subprocess.run([self._explain, path], capture_output=True, check=False, env=environment)
        return (done.stdout + done.stderr).decode(errors="replace").strip()
