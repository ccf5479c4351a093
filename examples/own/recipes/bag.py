"""A queue of a library, in which nothing may be lost or doubled. No lock is held round its calls.

A push is logged before it and a pop after it, each with its commit: so no pop stands in the log before its push. Each element is
another number, and has the place of that number. What is lost is seen when somebody looks for it: at the end all that is
left is popped, and then each element that was pushed is looked for.
The broken library loses an element.
"""

import itertools
from collections import deque

from recipes import CALLERS, OPERATIONS, Header, run, together

SIZE = CALLERS * OPERATIONS // 4


class LosesOne(deque):
    """Its second popleft throws an element away."""

    calls = 0

    def popleft(self):
        self.calls += 1
        if self.calls == 2:
            super().popleft()
        return super().popleft()


class Bag:
    def __init__(self, library):
        self._library = library
        self._numbers = itertools.count()
        self._pushed = 0

    def push(self, caller):
        x = next(self._numbers)
        with caller.step() as lines:
            lines.call("insert", x)
            lines.write(2 * x + 1, x)
            lines.write(2 * x, 2)
            lines.commit()
            self._pushed += 1
        self._library.append(x)
        caller.returns(1)

    def pop(self, caller):
        try:
            x = self._library.popleft()
        except IndexError:
            return False
        with caller.step() as lines:
            lines.call("delete", x)
            lines.write(2 * x, 0)
            lines.commit()
            lines.returns(1)
        return True

    def audit(self, caller):
        """When all others have ended."""
        while self.pop(caller):
            pass
        with caller.step() as lines:
            for x in range(self._pushed):
                lines.observed("lookup", x, reply=0)


def correct(log, seed):
    bag = Bag(deque())

    def play(caller, draw):
        if draw.randrange(2):
            bag.push(caller)
        else:
            bag.pop(caller)

    together(log, play, seed)
    with log.caller() as caller:
        bag.audit(caller)


def broken(log):
    bag = Bag(LosesOne())
    with log.caller() as caller:
        for _ in range(4):
            bag.push(caller)
        bag.pop(caller)
        bag.pop(caller)
        bag.audit(caller)


run(Header(1, "multiset", SIZE, CALLERS), correct, broken)
