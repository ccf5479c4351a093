"""A queue in a ring of places, whose elements have to come out in the order in which they went in.

An element's key is its ticket: how many pushes took effect before it. A pop has to find the ticket that says how many pops
did. The log counts both in its steps; what the structure counts may be wrong.
The broken pop finds the oldest place before it takes the lock. Meanwhile that place is emptied and filled again.
"""

import threading

from recipes import COUNT, KEY, VALUE, empty_leaves, leaf, meanwhile, run, together

PLACES = 2


class Queue:
    def __init__(self):
        self._lock = threading.Lock()
        self._places = [None] * PLACES
        self._head = self._tail = 0
        self._pushed = self._popped = 0  # of the log

    def push(self, caller, x):
        with self._lock, caller.step() as lines:
            place = self._tail % PLACES
            if self._places[place] is not None:  # full: what was pushed PLACES tickets ago is there
                lines.observed("lookup", self._pushed - PLACES, reply=self._places[place] + 1)
                return
            self._places[place] = x
            self._tail += 1
            lines.call("insert", self._pushed, x)
            lines.open()
            lines.write(leaf(place, KEY), self._pushed)
            lines.write(leaf(place, VALUE), x)
            lines.write(leaf(place, COUNT), 1)
            lines.close_commit()
            lines.returns(1)
            self._pushed += 1

    def pop(self, caller):
        with self._lock:
            return self._take(caller, self._head)

    def pop_late(self, caller, between):
        head = self._head
        between()
        with self._lock:
            return self._take(caller, head)

    def _take(self, caller, head):
        with caller.step() as lines:
            x = self._places[head % PLACES]
            if x is None:  # empty: the next ticket isn't there
                lines.observed("lookup", self._popped, reply=0)
                return None
            self._places[head % PLACES] = None
            self._head = head + 1
            lines.observed("lookup", self._popped, reply=x + 1)
            lines.call("delete", self._popped)
            lines.write(leaf(head % PLACES, COUNT), 0)
            lines.commit()
            lines.returns(1)
            self._popped += 1
            return x


def correct(log, seed):
    queue = Queue()

    def play(caller, draw):
        if draw.randrange(2):
            queue.push(caller, draw.randrange(100))
        else:
            queue.pop(caller)

    together(log, play, seed)


def broken(log):
    queue = Queue()
    with log.caller() as one, log.caller() as other:

        def pop_and_push():
            queue.pop(other)
            queue.push(other, 12)

        queue.push(one, 10)
        queue.push(one, 11)
        queue.pop_late(one, lambda: meanwhile(pop_and_push))


run(empty_leaves(PLACES), correct, broken)
