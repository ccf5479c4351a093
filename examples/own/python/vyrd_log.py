"""Writes a VYRD log from any number of threads. Copy it into your program.

One lock orders all lines. A change of your structure and the lines that tell of it are made under this lock, as one step,
so that the log has the changes in the order in which they took place:

    with log.step(caller) as lines:
        values[place] = x
        lines.write(word, x)

What only looks needs no step. The lines are kept in memory until `print`.
"""

import contextlib
import sys
import threading


class Lines:
    """The lines of one step of one caller. They stand in the log one after the other."""

    def __init__(self, text, caller):
        self._text = text
        self._caller = caller

    def put(self, entry):
        self._text.append(f"{self._caller} {entry}\n")

    def write(self, word, value):
        self.put(f"write {word} {value}")

    def commit(self):
        self.put("commit")

    def open(self):
        self.put("open")

    def close(self):
        self.put("close")

    def close_commit(self):
        self.put("close commit")


class VyrdLog:
    """`subject` is multiset, cache, tree or buffers; `size` is from 1 to 1,024, `callers` from 1 to 64. Callers count from 0."""

    def __init__(self, subject, size, callers):
        self._order = threading.Lock()
        self._text = [f"vyrd 1 {subject} {size} {callers}\n"]

    @contextlib.contextmanager
    def step(self, caller):
        """Holds the lock that orders the lines while a change is done and its lines are added."""
        with self._order:
            yield Lines(self._text, caller)

    def call(self, caller, method):
        """Before the method does anything: `log.call(caller, "insert 5 1")`."""
        with self.step(caller) as lines:
            lines.put(f"call {method}")

    def returns(self, caller, reply):
        """After the method has done all."""
        with self.step(caller) as lines:
            lines.put(f"return {reply}")

    def print(self, out=sys.stdout):
        """Once, when all threads have ended. Lines end with a line feed alone where `out` translates none."""
        out.writelines(self._text)
        out.write("end\n")
        out.flush()
