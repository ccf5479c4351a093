"""A map from numbers to numbers, logged as a tree that has leaves alone.

    number_map.py correct     three threads insert, delete and look up at random; prints the log of that run
    number_map.py broken      an insert looks for the key before it takes the lock; prints the log of that run

The map keeps its entries in two lists, in no order of keys, and a dict says where each key is. It is no tree at all. Its
place p is told as entry p mod 4 of leaf p / 4, and the leaves as a chain by their right words.

The status is 0, and 64 if the words are none of these.
"""

import random
import sys
import threading

from vyrd_log import VyrdLog

LEAVES = 8
PLACES = 4 * LEAVES
COUNT, RIGHT, KEYS, VALUES = 1, 3, 4, 8  # where a leaf's words stand among its twelve


class NumberMap:
    """With `between` given, an insert looks for its key first, then calls it, and takes the lock after that."""

    def __init__(self, log, between=None):
        self._log = log
        self._between = between
        self._lock = threading.Lock()
        self._keys = []
        self._values = []
        self._place_of = {}

    def insert(self, caller, key, value):
        """Replies 1 if the key is new, 2 if it was there, and 0 if there is no room."""
        self._log.call(caller, f"insert {key} {value}")
        if self._between:
            place = self._place_of.get(key)
            self._between(caller)
            with self._lock:
                reply = self._put(caller, place, key, value)
        else:
            with self._lock:
                reply = self._put(caller, self._place_of.get(key), key, value)
        self._log.returns(caller, reply)

    def delete(self, caller, key):
        """Replies 1 if the key was there, and 0 if it wasn't. The last entry moves to its place."""
        self._log.call(caller, f"delete {key}")
        with self._lock:
            place = self._place_of.pop(key, None)
            with self._log.step(caller) as lines:
                lines.open()
                if place is not None:
                    self._take_out(lines, place)
                lines.close_commit()
        self._log.returns(caller, int(place is not None))

    def lookup(self, caller, key):
        """Replies the value plus 1, and 0 if the key isn't there."""
        self._log.call(caller, f"lookup {key}")
        with self._lock:
            place = self._place_of.get(key)
            reply = 0 if place is None else self._values[place] + 1
        self._log.returns(caller, reply)

    def _put(self, caller, place, key, value):
        with self._log.step(caller) as lines:
            if place is not None:
                self._values[place] = value
                lines.write(word(place, VALUES), value)
                lines.commit()
                return 2
            if len(self._keys) == PLACES:
                lines.commit()
                return 0
            lines.open()
            self._append(lines, key, value)
            lines.close_commit()
            return 1

    def _append(self, lines, key, value):
        place = len(self._keys)
        leaf = place // 4
        self._keys.append(key)
        self._values.append(value)
        self._place_of[key] = place
        if place % 4 == 0 and leaf > 0:
            lines.write(12 * (leaf - 1) + RIGHT, leaf)
        lines.write(word(place, KEYS), key)
        lines.write(word(place, VALUES), value)
        lines.write(12 * leaf + COUNT, place % 4 + 1)

    def _take_out(self, lines, place):
        key, value = self._keys.pop(), self._values.pop()
        last = len(self._keys)
        if place < last:
            self._keys[place], self._values[place], self._place_of[key] = key, value, place
            lines.write(word(place, KEYS), key)
            lines.write(word(place, VALUES), value)
        lines.write(12 * (last // 4) + COUNT, last % 4)


def word(place, of):
    """The word of a place's key or value."""
    return 12 * (place // 4) + of + place % 4


def play(numbers, caller, operations):
    draw = random.Random(caller)
    for _ in range(operations):
        key = draw.randrange(20)
        kind = draw.randrange(4)
        if kind == 0:
            numbers.delete(caller, key)
        elif kind == 1:
            numbers.lookup(caller, key)
        else:
            numbers.insert(caller, key, draw.randrange(1000))


def run_correct():
    callers, operations = 3, 200
    log = VyrdLog("tree", LEAVES, callers)
    numbers = NumberMap(log)
    threads = [threading.Thread(target=play, args=(numbers, c, operations)) for c in range(callers)]
    for thread in threads:
        thread.start()
    for thread in threads:
        thread.join()
    log.print()


def run_broken():
    """Caller 1 finds no key 7, caller 0 inserts it, and then caller 1 inserts it too, as a new one."""
    looked, inserted = threading.Event(), threading.Event()

    def between(caller):
        if caller == 1:
            looked.set()
            inserted.wait()

    log = VyrdLog("tree", LEAVES, 2)
    numbers = NumberMap(log, between)
    other = threading.Thread(target=numbers.insert, args=(1, 7, 20))
    other.start()
    looked.wait()
    numbers.insert(0, 7, 10)
    inserted.set()
    other.join()
    log.print()


RUNS = {"correct": run_correct, "broken": run_broken}
if sys.argv[1:] == ["--help"]:
    print(__doc__.strip())
elif len(sys.argv) == 2 and sys.argv[1] in RUNS:
    RUNS[sys.argv[1]]()
else:
    print("number_map.py: it takes `correct` or `broken`; --help says more", file=sys.stderr)
    sys.exit(64)
