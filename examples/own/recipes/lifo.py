"""A stack in an array, of which the element that was pushed last has to come out first.

An element's key is its depth: how many were in the stack when its push took effect. The log counts in its steps how many are
in the stack; what the structure counts may be wrong.
The broken pop finds the top before it takes the lock. Meanwhile another element is pushed.
"""

import threading

from recipes import COUNT, KEY, VALUE, empty_leaves, leaf, meanwhile, run, together

PLACES = 4


class Stack:
    def __init__(self):
        self._lock = threading.Lock()
        self._items = []
        self._depth = 0  # of the log

    def push(self, caller, x):
        with self._lock, caller.step() as lines:
            if len(self._items) == PLACES:
                return
            self._items.append(x)
            lines.call("insert", self._depth, x)
            lines.open()
            lines.write(leaf(self._depth, KEY), self._depth)
            lines.write(leaf(self._depth, VALUE), x)
            lines.write(leaf(self._depth, COUNT), 1)
            lines.close_commit()
            lines.returns(1)
            self._depth += 1

    def pop(self, caller):
        with self._lock:
            return self._take(caller, len(self._items) - 1)

    def pop_late(self, caller, between):
        top = len(self._items) - 1
        between()
        with self._lock:
            return self._take(caller, top)

    def _take(self, caller, top):
        if top < 0:
            return None
        with caller.step() as lines:
            x = self._items.pop(top)
            self._depth -= 1
            lines.observed("lookup", self._depth, reply=x + 1)
            lines.call("delete", self._depth)
            lines.write(leaf(self._depth, COUNT), 0)
            lines.commit()
            lines.returns(1)
            return x


def correct(log, seed):
    stack = Stack()

    def play(caller, draw):
        if draw.randrange(2):
            stack.push(caller, draw.randrange(100))
        else:
            stack.pop(caller)

    together(log, play, seed)


def broken(log):
    stack = Stack()
    with log.caller() as one, log.caller() as other:
        stack.push(one, 10)
        stack.pop_late(one, lambda: meanwhile(lambda: stack.push(other, 11)))


run(empty_leaves(PLACES), correct, broken)
