"""A library's table that gives out accessors: each holds the lock of its key until it is given back.

A change and its line stand under the accessor. An erase gives the accessor back, so its line stands before it.
The broken one accuses a table that is right: it logs the erase after it, and meanwhile the key is inserted anew.
"""

import threading

from recipes import COUNT, KEY, VALUE, empty_leaves, leaf, meanwhile, run, together

KEYS = 4


class Accessor:
    """The library's: a key's value, or None, under the key's lock."""

    def __init__(self, table, key):
        self._lock = table.locks[key]
        self._values, self._key = table.values, key
        self._lock.acquire()

    def get(self):
        return self._values.get(self._key)

    def set(self, value):
        self._values[self._key] = value

    def erase(self):
        del self._values[self._key]
        self.give_back()

    def give_back(self):
        self._lock.release()


class Table:
    """The library's."""

    def __init__(self):
        self.locks = [threading.Lock() for _ in range(KEYS)]
        self.values = {}


def put(table, caller, key, value):
    accessor = Accessor(table, key)
    new = accessor.get() is None
    with caller.step() as lines:
        accessor.set(value)
        lines.call("insert", key, value)
        lines.open()
        lines.write(leaf(key, KEY), key)
        lines.write(leaf(key, VALUE), value)
        lines.write(leaf(key, COUNT), 1)
        lines.close_commit()
        lines.returns(1 if new else 2)
    accessor.give_back()


def erase(table, caller, key, between=None):
    accessor = Accessor(table, key)
    if accessor.get() is None:
        caller.call("lookup", key)
        caller.returns(0)
        accessor.give_back()
    elif between is None:
        log_erase(caller, key)
        accessor.erase()
    else:
        accessor.erase()
        between()
        log_erase(caller, key)


def log_erase(caller, key):
    with caller.step() as lines:
        lines.call("delete", key)
        lines.write(leaf(key, COUNT), 0)
        lines.commit()
        lines.returns(1)


def get(table, caller, key):
    caller.call("lookup", key)
    accessor = Accessor(table, key)
    value = accessor.get()
    accessor.give_back()
    caller.returns(0 if value is None else value + 1)


def correct(log, seed):
    table = Table()

    def play(caller, draw):
        key, kind = draw.randrange(KEYS), draw.randrange(3)
        if kind == 0:
            erase(table, caller, key)
        elif kind == 1:
            get(table, caller, key)
        else:
            put(table, caller, key, draw.randrange(100))

    together(log, play, seed)


def broken(log):
    table = Table()
    with log.caller() as one, log.caller() as other:
        put(table, one, 3, 10)
        erase(table, one, 3, lambda: meanwhile(lambda: put(table, other, 3, 20)))


run(empty_leaves(KEYS), correct, broken)
