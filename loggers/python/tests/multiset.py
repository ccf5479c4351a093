"""A multiset in four slots, each with a value and a valid bit, whose log is judged.

multiset.py correct     an insert finds its slot and fills it under the lock
multiset.py broken      it looks for the slot before it takes the lock: two find the same one
"""

import contextlib
import random
import sys
import threading
from pathlib import Path

sys.path.insert(0, str(Path(__file__).resolve().parent.parent))
from vyrd_log import Header, Log  # noqa: E402

SLOTS = 4


class Multiset:
    """With `between` given, an insert looks without the lock, and calls it after that."""

    def __init__(self, between=None):
        self._between = between
        self._lock = threading.Lock()
        self._value = [0] * SLOTS
        self._valid = [False] * SLOTS

    def insert(self, caller, x):
        caller.call("insert", x)
        with contextlib.ExitStack() as held:
            if not self._between:
                held.enter_context(self._lock)
            free = next((i for i in range(SLOTS) if not self._valid[i]), None)
            if self._between:
                self._between(caller.number)
                held.enter_context(self._lock)
            if free is None:
                caller.commit()
            else:
                self._fill(caller, free, x)
        caller.returns(free is not None)

    def delete(self, caller, x):
        caller.call("delete", x)
        with self._lock:
            place = self._find(x)
            with caller.step() as lines:
                if place is not None:
                    self._valid[place] = False
                    lines.write(2 * place, 0)
                lines.commit()
        caller.returns(place is not None)

    def lookup(self, caller, x):
        caller.call("lookup", x)
        with self._lock:
            place = self._find(x)
        caller.returns(place is not None)

    def take(self, caller):
        """Takes out any element. Which one is known only then, so all of the call's lines are there."""
        with self._lock:
            place = next((i for i in range(SLOTS) if self._valid[i]), None)
            if place is None:
                return
            with caller.step() as lines:
                self._valid[place] = False
                lines.observed("lookup", self._value[place], reply=True)
                lines.call("delete", self._value[place])
                lines.write(2 * place, 0)
                lines.commit()
                lines.returns(True)

    def _fill(self, caller, i, x):
        with caller.step() as lines:
            self._value[i] = x
            lines.write(2 * i + 1, x)
        with caller.step() as lines:
            self._valid[i] = True
            lines.write(2 * i, 2)
            lines.commit()

    def _find(self, x):
        return next((i for i in range(SLOTS) if self._valid[i] and self._value[i] == x), None)


def play(log, multiset, threads, seed):
    with log.caller() as caller:
        log.start_together(threads)
        draw = random.Random(64 * seed + caller.number)
        for _ in range(200):
            x = draw.randrange(3)
            kind = draw.randrange(6)
            if kind == 0:
                multiset.delete(caller, x)
            elif kind == 1:
                multiset.lookup(caller, x)
            elif kind == 2:
                multiset.take(caller)
            else:
                multiset.insert(caller, x)


def together(log, multiset, callers, seed):
    """Each of so many threads does operations that the seed gives."""
    threads = [threading.Thread(target=play, args=(log, multiset, callers, seed)) for _ in range(callers)]
    for thread in threads:
        thread.start()
    for thread in threads:
        thread.join()


def interrupted(log):
    """The broken one: caller 0 finds slot 0 free. Before it fills it, caller 1 does so, with its whole insert."""
    looked, filled = threading.Event(), threading.Event()

    def between(caller):
        if caller == 0:
            looked.set()
            filled.wait()

    multiset = Multiset(between)
    first, second = log.caller(), log.caller()
    other = threading.Thread(target=multiset.insert, args=(first, 5))
    other.start()
    looked.wait()
    multiset.insert(second, 6)
    filled.set()
    other.join()


def run_correct(header):
    with Log(header, sys.stdout.buffer, seed=7) as log:
        together(log, Multiset(), 4, 7)


def run_broken(header):
    with Log(header, sys.stdout.buffer) as log:
        interrupted(log)


if __name__ == "__main__":
    runs = {"correct": run_correct, "broken": run_broken}
    if len(sys.argv) not in (2, 3) or sys.argv[1] not in runs:
        sys.exit("usage: multiset.py correct | broken [SPECIFICATION]")
    runs[sys.argv[1]](Header.own_file(sys.argv[2]) if len(sys.argv) == 3 else Header(1, "multiset", 1, 4))
