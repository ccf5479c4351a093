"""Operations that reply what was there: a swap, and a compare-and-set that may fail.

The old value is a lookup whose call and return stand in the step of the change, so it is judged at this one place. A
compare-and-set that fails changes nothing: the lookup is all that is logged.
The broken swap loads the old value before it takes the lock, and another swap comes between.
"""

import threading

from recipes import COUNT, KEY, VALUE, empty_leaves, leaf, meanwhile, run, together

KEYS = 4


class Numbers:
    """A number for each key, or None."""

    def __init__(self):
        self._lock = threading.Lock()
        self._held = [None] * KEYS

    def swap(self, caller, key, number):
        """Replies what was there."""
        with self._lock, caller.step() as lines:
            old, self._held[key] = self._held[key], number
            changed(lines, key, old, number)
        return old

    def swap_late(self, caller, key, number, between):
        old = self._held[key]
        between()
        with self._lock, caller.step() as lines:
            self._held[key] = number
            changed(lines, key, old, number)
        return old

    def compare_and_set(self, caller, key, expected, number):
        """Sets the number if the expected one is there. Replies what was there."""
        with self._lock, caller.step() as lines:
            found = self._held[key]
            if found == expected:
                self._held[key] = number
                changed(lines, key, found, number)
            else:
                lines.observed("lookup", key, reply=reply_of(found))
        return found


def reply_of(number):
    return 0 if number is None else number + 1


def changed(lines, key, old, number):
    lines.observed("lookup", key, reply=reply_of(old))
    lines.call("insert", key, number)
    lines.open()
    lines.write(leaf(key, KEY), key)
    lines.write(leaf(key, VALUE), number)
    lines.write(leaf(key, COUNT), 1)
    lines.close_commit()
    lines.returns(1 if old is None else 2)


def correct(log, seed):
    numbers = Numbers()

    def play(caller, draw):
        key = draw.randrange(KEYS)
        seen = numbers.swap(caller, key, draw.randrange(3))
        numbers.compare_and_set(caller, key, seen, draw.randrange(3))

    together(log, play, seed)


def broken(log):
    numbers = Numbers()
    with log.caller() as one, log.caller() as other:
        numbers.swap_late(one, 2, 10, lambda: meanwhile(lambda: numbers.swap(other, 2, 20)))


run(empty_leaves(KEYS), correct, broken)
