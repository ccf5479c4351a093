"""The checker, and its answers: what it says of a file, or what stands after a log."""

import os
import re
import shutil
import subprocess
from pathlib import Path

from command import Ended, kept, temporary, unread
from logtext import Log

NO_VERDICT = 70  # the checker ended as if there were a verdict, and gave none
LONGEST_ANSWER = 200
TOO_LONG = "malformed at line 16777217: too many lines"  # what other forms than `check` say of a longer log
VERDICTS = {0: "accepted: ", 1: "violation at line ", 2: "malformed at line "}

NUMBER = "[0-9]{1,20}"
ANSWER = re.compile(
    f"(?:accepted: {NUMBER} entries, {NUMBER} commits, {NUMBER} observers"
    f"|violation at line {NUMBER}: "
    f"(?:reply {NUMBER} not allowed|view differs at key {NUMBER}|observer reply {NUMBER} in no state)"
    f"|malformed at line {NUMBER}: [a-z ]+|stuck|workload refused at line {NUMBER}: [a-z ]+|events spent by caller {NUMBER})$"
)


def checker():
    """The program: the one that VYRD names, or else the launcher of this repository."""
    named = os.environ.get("VYRD") or str(Path(__file__).resolve().parent.parent / "vyrd")
    found = shutil.which(named)
    if not found:
        raise Ended(f"the checker {named} can't be run: there is no such program")
    return found


def check(arguments, source, sink):
    """Runs the checker from the beginning of a file on, and gives its status."""
    source.seek(0)
    program = checker()
    try:
        status = subprocess.run([program, *arguments], stdin=source, stdout=sink, check=False).returncode
    except OSError as error:
        raise Ended(f"the checker {program} can't be run: {error.strerror}") from None
    return status if status >= 0 else 128 - status


def is_verdict(status, answer):
    """Whether a status and an answer belong together, as those of a verdict do."""
    return status in VERDICTS and answer.startswith(VERDICTS[status]) and ANSWER.fullmatch(answer) is not None


def without_verdict(status):
    """What ends a script if the checker ended so. The statuses of a verdict would say what it didn't."""
    return Ended(f"the checker ended with status {status} and gave no verdict", NO_VERDICT if status in VERDICTS else status)


def other_log():
    """What ends a script if the answer can't be about the log."""
    return Ended("this log isn't the one that the answer is about")


class Told:
    """What `explain` or `follow` says of a log: the verdict, and behind it the lines that are iterated over.

    The verdict is the one about the log that is known, if one is known. All is said by the time it is made, so that the file of
    the log can be read again.
    """

    def __init__(self, form, log):
        self.file = temporary()
        status = check([form], log.file, self.file)
        self.file.seek(0)
        self.verdict = next(self._lines(), "")
        if not is_verdict(status, self.verdict):
            raise without_verdict(status)
        known = log.answer or ""
        if known.startswith(tuple(VERDICTS.values())) and known != self.verdict:
            too_long = Ended(f"{form} takes no log of more than 16,777,216 lines")
            raise too_long if self.verdict == TOO_LONG else other_log()

    def __iter__(self):
        self.file.seek(0)
        lines = self._lines()
        next(lines)
        return lines

    def _lines(self):
        with open(self.file.fileno(), encoding="latin-1", newline="\n", closefd=False) as lines:
            for line in lines:
                yield line.removesuffix("\n")


def unknown_line(form, line):
    """What ends a script that has to read a line of the program which it doesn't know."""
    return Ended(f"the checker says under {form} what isn't known here: {line[:LONGEST_ANSWER]}", NO_VERDICT)


def answered(names):
    """The log in the one file that is named, judged by the checker, or the log with its answer on standard input."""
    name = names[0] if names else "-"
    file, answer = apart(name)
    if name == "-":
        return Log(file, name, answer)
    with temporary() as said:
        status = check(["check"], file, said)
        answer = last_line(said)
    if not is_verdict(status, answer):
        raise without_verdict(status)
    return Log(file, name, answer)


def apart(name):
    """The log in a file, or on standard input, and the answer that stands after it, or None. The file itself stays as it is."""
    file = kept(name)
    try:
        file.read(1)  # a file that can't be read may have no end either
        end = end_of(file)
        start = max(0, end - LONGEST_ANSWER)
        file.seek(start)
        answer = ANSWER.search(file.read(end - start).decode("latin-1"))
    except OSError as error:
        raise unread(name, error) from None
    if not answer:
        return file, None
    if name != "-":
        return beginning(file, start + answer.start()), answer[0]
    file.truncate(start + answer.start())
    return file, answer[0]


def beginning(file, length):
    """So many bytes of a file, as another one."""
    copy = temporary()
    file.seek(0)
    with open(copy.fileno(), "wb", closefd=False) as sink:
        while piece := file.read(min(length, 1 << 20)):
            sink.write(piece)
            length -= len(piece)
    return copy


def last_line(file):
    """The last line of a file, up to LONGEST_ANSWER bytes of it."""
    end = end_of(file)
    start = max(0, end - LONGEST_ANSWER)
    file.seek(start)
    return file.read(end - start).rpartition(b"\n")[2].decode("latin-1")


def end_of(file):
    """Where a file ends, without the line feeds at its end."""
    end = file.seek(0, os.SEEK_END)
    while end:
        start = max(0, end - (1 << 16))
        file.seek(start)
        text = file.read(end - start).rstrip(b"\n")
        if text:
            return start + len(text)
        end = start
    return 0
