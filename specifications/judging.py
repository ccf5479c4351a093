"""The program, as the scripts of this folder ask it."""

import os
import re
import shutil
import subprocess
import tempfile
from pathlib import Path

from command import Ended

NO_PROGRAM = 70
REFUSED, STUCK = 7, 8  # statuses of a workload that isn't played to its end
MOST_LOGS, MOST_BYTES = 10_000, 60_000_000  # of a batch; the program takes 64 MiB
TOP = Path(__file__).resolve().parent.parent
VERDICT = re.compile("(accepted: |violation at line |malformed at line ).*")


def program():
    """The program that judges."""
    named = os.environ.get("VYRD") or str(TOP / "vyrd")
    found = shutil.which(named)
    if found is None:
        raise Ended(f"the program can't be run: {named}", NO_PROGRAM)
    return found


def asked(words, text):
    """The status and the output of the program. It reads from a file, so that it may end before it has read all."""
    with tempfile.TemporaryFile() as source:
        source.write(text.encode("latin-1"))
        source.seek(0)
        ran = subprocess.run([program(), *words.split()], stdin=source, stdout=subprocess.PIPE, check=False)
    return ran.returncode, ran.stdout.decode("latin-1")


def checked(text):
    """The status and the line of the verdict about a log."""
    status, said = asked("check", text)
    answer = said.removesuffix("\n")
    if status > 2 or not VERDICT.fullmatch(answer):
        raise Ended(f"the program gives no verdict, and ends with {status}", NO_PROGRAM)
    return status, answer


def played(work):
    """The log of a workload's run by turns, or None where that is refused or gets stuck."""
    status, said = asked("step --log", work)
    if status in (REFUSED, STUCK):
        return None
    if status > 2:
        raise Ended(f"the program plays no workload, and ends with {status}", NO_PROGRAM)
    return "".join(line + "\n" for line in said.split("\n")[:-2])


def batch_answers(texts):
    """The lines of the verdicts about logs, in their order, from as few batches as take them."""
    part, size = [], 0
    for text in texts:
        if part and (len(part) == MOST_LOGS or size + len(text) > MOST_BYTES):
            yield from answers_of(part)
            part, size = [], 0
        part.append(text)
        size += len(text) + 20
    if part:
        yield from answers_of(part)


def answers_of(texts):
    """The lines of the verdicts about the logs of one batch."""
    framed = "".join(f"log {len(text)}\n{text}" for text in texts)
    status, said = asked("batch", f"batch\n{framed}end\n")
    lines = said.splitlines()
    answers = [line.removeprefix(f"log {place}: ") for place, line in enumerate(lines[:-1])]
    if lines[-1:] != [f"batch: {len(texts)} logs"] or not all(map(VERDICT.fullmatch, answers)):
        raise Ended(f"the program gives no verdicts about a batch, and ends with {status}", NO_PROGRAM)
    return answers
