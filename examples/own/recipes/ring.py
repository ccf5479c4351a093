"""A queue in a ring of cells without a lock. A push takes effect where it takes its position, and stores its element after that.

So from that commit to the end of its stores it is a block, in version 2. A cell's turn says whose it is: that of the push
with this position, or, if it is one more, of the pop with this position. Tickets are as in fifo.py. Python has no
compare-and-set: the step stands for it.
The broken push takes its position by a load and a store. Meanwhile another push takes the same one.
"""

from recipes import COUNT, KEY, VALUE, empty_leaves, leaf, meanwhile, run, together

CELLS = 4


class Ring:
    def __init__(self, between=None):
        self._between = between
        self._turn = list(range(CELLS))
        self._value = [0] * CELLS
        self._head = self._tail = 0
        self._pushed = self._popped = 0  # of the log

    def push(self, caller, x):
        while True:
            at = self._tail
            if self._turn[at % CELLS] < at:
                return  # full, or its oldest pop hasn't ended: not logged
            if self._turn[at % CELLS] == at and self._takes(caller, at, x):
                break
        with caller.step() as lines:
            self._value[at % CELLS] = x
            lines.write(leaf(at % CELLS, VALUE), x)
        with caller.step() as lines:
            self._turn[at % CELLS] = at + 1
            lines.write(leaf(at % CELLS, COUNT), 1)
            lines.close()
            lines.returns(1)

    def pop(self, caller):
        while True:
            at = self._head
            if self._turn[at % CELLS] < at + 1:
                return  # empty, or its oldest push hasn't ended: not logged
            if self._turn[at % CELLS] == at + 1 and self._gives(caller, at):
                break
        with caller.step() as lines:
            self._turn[at % CELLS] = at + CELLS
            lines.write(leaf(at % CELLS, COUNT), 0)
            lines.close()
            lines.returns(1)

    def _takes(self, caller, at, x):
        if self._between:
            self._between(caller)
        with caller.step() as lines:
            if self._tail != at and not self._between:
                return False
            self._tail = at + 1
            lines.call("insert", self._pushed, x)
            lines.open()
            lines.commit()
            lines.write(leaf(at % CELLS, KEY), self._pushed)
            self._pushed += 1
        return True

    def _gives(self, caller, at):
        with caller.step() as lines:
            if self._head != at:
                return False
            self._head = at + 1
            lines.observed("lookup", self._popped, reply=self._value[at % CELLS] + 1)
            lines.call("delete", self._popped)
            lines.open()
            lines.commit()
            self._popped += 1
        return True


def correct(log, seed):
    ring = Ring()

    def play(caller, draw):
        if draw.randrange(2):
            ring.push(caller, draw.randrange(100))
        else:
            ring.pop(caller)

    together(log, play, seed)


def broken(log):
    with log.caller() as one, log.caller() as other:

        def between(caller):
            if caller is one:
                meanwhile(lambda: ring.push(other, 20))

        ring = Ring(between)
        ring.push(one, 10)


run(empty_leaves(CELLS), correct, broken)
