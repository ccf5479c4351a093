"""A set in a list of linked nodes, which are locked one by one. It is logged by its real links.

A leaf of the log is a node: its count is 1 until the node is marked as deleted, and its right word is the node's link. Leaf 0
is the head, and has no entry. An operation looks for its place without a lock, then locks the node before it, and checks that
this one is neither marked nor linked otherwise.
The broken one doesn't check. Its insert links the new node to one that has been deleted meanwhile.
"""

import threading
from collections import deque

from recipes import CALLERS, COUNT, KEY, RIGHT, Header, leaf, meanwhile, run, together

NODES = 16


class Node:
    def __init__(self, number, key, after):
        self.number = number
        self.key = key
        self.after = after
        self.marked = False
        self.lock = threading.Lock()


class Set:
    def __init__(self, checks=True, between=lambda: None):
        self._checks = checks
        self._between = between
        self._head = Node(0, -1, None)
        self._free = deque(range(1, NODES))  # numbers of nodes

    def insert(self, caller, key):
        caller.call("insert", key, 0)
        before, node = self._place(key)
        new = node is None or node.key != key
        if not new:
            caller.commit()
        elif self._free:
            self._link(caller, before, Node(self._free.popleft(), key, node))
        else:
            raise MemoryError("no node is free")
        before.lock.release()
        caller.returns(1 if new else 2)

    def delete(self, caller, key):
        caller.call("delete", key)
        before, node = self._place(key)
        found = node is not None and node.key == key
        if found:
            self._unlink(caller, before, node)
        else:
            caller.commit()
        before.lock.release()
        caller.returns(found)

    def lookup(self, caller, key):
        caller.call("lookup", key)
        node = self._look(key)[1]
        caller.returns(node is not None and node.key == key and not node.marked)

    def _look(self, key):
        before, node = self._head, self._head.after
        while node is not None and node.key < key:
            before, node = node, node.after
        return before, node

    def _place(self, key):
        """The node before a key, which is locked, and the one after it."""
        while True:
            before, node = self._look(key)
            self._between()
            before.lock.acquire()
            if not self._checks or (not before.marked and before.after is node):
                return before, node
            before.lock.release()

    def _link(self, caller, before, node):
        with caller.step() as lines:  # nobody else sees the node yet
            lines.write(leaf(node.number, KEY), node.key)
            lines.write(leaf(node.number, COUNT), 1)
            lines.write(leaf(node.number, RIGHT), number_of(node.after))
        with caller.step() as lines:
            before.after = node
            lines.write(leaf(before.number, RIGHT), node.number)
            lines.commit()

    def _unlink(self, caller, before, node):
        with node.lock:
            with caller.step() as lines:
                node.marked = True
                lines.write(leaf(node.number, COUNT), 0)
                lines.commit()
            with caller.step() as lines:
                before.after = node.after
                lines.write(leaf(before.number, RIGHT), number_of(node.after))
        self._free.append(node.number)


def number_of(node):
    return 0 if node is None else node.number


def correct(log, seed):
    numbers = Set()

    def play(caller, draw):
        action = draw.choice([numbers.insert, numbers.delete, numbers.lookup])
        action(caller, draw.randrange(6))

    together(log, play, seed)


def broken(log):
    numbers = Set()
    with log.caller() as one, log.caller() as other:
        numbers.insert(one, 5)
        numbers._checks = False
        numbers._between = once(lambda: meanwhile(lambda: numbers.delete(other, 5)))
        numbers.insert(one, 6)


def once(action):
    """Does the action when it is called first, and nothing after that."""
    left = [action]
    return lambda: left and left.pop()()


run(Header(1, "tree", NODES, CALLERS), correct, broken)
