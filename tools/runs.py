"""Runs a command again and again, some runs at a time, until the log of one isn't accepted. No run outlives the script."""

import os
import queue
import shutil
import signal
import subprocess
import tempfile
import threading
import time
from pathlib import Path
from typing import NamedTuple

from answers import check, is_verdict, last_line, without_verdict
from command import Ended, tell, temporary
from logtext import shown

NO_LOG = 70  # a run left nothing that could be judged
GRACE = 2  # seconds that a run has from being asked to end until it is ended
BETWEEN = {True: 5, False: 60}  # seconds from one word on how far it is to the next, on a terminal and elsewhere
MOST_SHOWN = 200


class Plan(NamedTuple):
    """What is run, how often, how many at a time, and how long each may take; None is for ever."""

    command: list
    times: int
    jobs: int
    seconds: int


class Catch(NamedTuple):
    """The run whose log wasn't accepted, that log in a file, and the answer."""

    number: int
    log: Path
    answer: str


class Runs:
    """The runs of a plan. It is a context: at its end all of them are over, and their files gone."""

    def __init__(self, plan):
        self.plan, self.reports = plan, queue.Queue()
        self.lock, self.live, self.last, self.is_over = threading.Lock(), set(), 0, False
        self.folder, self.workers, self.signals = None, [], []

    def __enter__(self):
        self.folder = Path(tempfile.mkdtemp(prefix="hunt."))
        self.signals = ending_signals()
        self._answer_signals(interrupted)
        for _ in range(min(self.plan.jobs, self.plan.times)):
            self.workers.append(threading.Thread(target=self._work, daemon=True))
            self.workers[-1].start()
        return self

    def __exit__(self, *_):
        self._answer_signals(signal.SIG_IGN)
        with self.lock:
            self.is_over = True
            for process in self.live:
                end_group(process, signal.SIGKILL)
        for worker in self.workers:
            worker.join(GRACE)
        shutil.rmtree(self.folder, ignore_errors=True)
        self._answer_signals(signal.SIG_DFL)

    def _answer_signals(self, how):
        for number in self.signals:
            signal.signal(number, how)

    def caught(self):
        """The first run that comes whose log isn't accepted, or None if all are."""
        done, between = 0, BETWEEN[os.isatty(2)]
        due = time.monotonic() + between
        while done < self.plan.times:
            try:
                report = self.reports.get(timeout=max(0, due - time.monotonic()))
            except queue.Empty:
                tell(f"{done} of {self.plan.times} runs were accepted so far")
                due += between
                continue
            if isinstance(report, BaseException):
                raise report
            if report:
                return report
            done += 1
        return None

    def _work(self):
        """Takes runs until there are no more, and reports of each what it caught, or what ends the hunt."""
        report = None
        while not report and (number := self._next()):
            try:
                report = self._play(number)
            except BaseException as error:  # whatever it is, it belongs to the thread that waits
                report = error
            self.reports.put(report)

    def _next(self):
        """The number of the next run, or 0."""
        with self.lock:
            if self.is_over or self.last == self.plan.times:
                return 0
            self.last += 1
            return self.last

    def _play(self, number):
        """Runs the command once and judges its log. Gives what was caught."""
        log, errors = self.folder / f"{number}.log", self.folder / f"{number}.errors"
        ending = self._run(number, log, errors)
        begin = beginning_of(log)
        if not begin.startswith(b"vyrd "):
            raise Ended(f"run {number} {ending} and {no_log(begin)}{last_words(errors)}", NO_LOG)
        answer = judged(log)
        if not answer.startswith("accepted"):
            return Catch(number, log, answer)
        log.unlink()
        errors.unlink()
        return None

    def _run(self, number, log, errors):
        """Runs the command, and says how it ended."""
        words = [word.replace("{log}", str(log)).replace("{seed}", str(number)) for word in self.plan.command]
        writes_file = any("{log}" in word for word in self.plan.command)
        with open(os.devnull if writes_file else log, "wb") as out, open(errors, "wb") as said:
            process = self._started(words, number, out, said)
        try:
            status = process.wait(self.plan.seconds)
            return f"ended with status {status}" if status >= 0 else f"was ended by signal {-status}"
        except subprocess.TimeoutExpired:
            tell(f"run {number} was ended after {self.plan.seconds} seconds")
            end_group(process, signal.SIGTERM)
            wait_without_reaping(process, GRACE)
            end_group(process, signal.SIGKILL)
            process.wait()
            return f"was ended after {self.plan.seconds} seconds"
        finally:
            with self.lock:
                self.live.discard(process)

    def _started(self, words, number, out, said):
        """A process of a group of its own, so that what it starts can be ended with it."""
        environment = {**os.environ, "VYRD_SEED": str(number)}
        with self.lock:
            if self.is_over:
                raise Ended(None)
            try:
                process = subprocess.Popen(
                    words, stdin=subprocess.DEVNULL, stdout=out, stderr=said, env=environment, start_new_session=True
                )
            except (OSError, ValueError) as error:
                raise Ended(f"the command {words[0]} can't be run: {getattr(error, 'strerror', error)}") from None
            self.live.add(process)
        return process


def ending_signals():
    """The signals that are to end the script, without those that it was started to ignore, as by nohup."""
    numbers = (signal.SIGINT, signal.SIGTERM, signal.SIGHUP)
    return [number for number in numbers if signal.getsignal(number) != signal.SIG_IGN]


def interrupted(number, _):
    """Ends the script as the signal would, after what is running has been ended."""
    raise Ended(None, 128 + number)


def end_group(process, number):
    """Sends a signal to a process and all that it has started. Once it has been waited for, its number may be another's."""
    if process.returncode is None:
        try:
            os.killpg(process.pid, number)
        except (ProcessLookupError, PermissionError):
            pass


def wait_without_reaping(process, seconds):
    """Waits until a process has ended, and leaves it its number, by which what it has started can still be ended."""
    until = time.monotonic() + seconds
    while time.monotonic() < until:
        if os.waitid(os.P_PID, process.pid, os.WEXITED | os.WNOWAIT | os.WNOHANG):
            return
        time.sleep(0.05)


def judged(log):
    """The answer about a log in a file."""
    with open(log, "rb", buffering=0) as source, temporary() as said:
        status = check(["check"], source, said)
        answer = last_line(said)
    if not is_verdict(status, answer):
        raise without_verdict(status)
    return answer


def beginning_of(log):
    """The first bytes of a file, and none if there is no file."""
    try:
        with open(log, "rb") as file:
            return file.read(MOST_SHOWN)
    except OSError:
        return b""


def no_log(begin):
    """What was written instead of a log, if anything was."""
    if not begin:
        return "wrote no log"
    line = begin.partition(b"\n")[0].decode("latin-1")
    return f"wrote no log: its first line is `{shown(line)}`"


def last_words(errors):
    """The last line that was written to standard error."""
    with open(errors, "rb", buffering=0) as file:
        line = last_line(file)
    return f"; the last that it said is: {line}" if line else ""
