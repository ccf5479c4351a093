"""A map of a library that shows nothing of itself: its changes stand in steps with their lines, and its looks don't.

So the changes take place one after the other, and what is checked is that looks beside them are right.
The broken look makes two calls of the library, and the key is deleted between them.
"""

from recipes import COUNT, KEY, VALUE, empty_leaves, leaf, meanwhile, run, together

KEYS = 4


class Map:
    def __init__(self):
        self._library = {}

    def put(self, caller, key, value):
        with caller.step() as lines:
            new = key not in self._library
            self._library[key] = value
            lines.call("insert", key, value)
            lines.open()
            lines.write(leaf(key, KEY), key)
            lines.write(leaf(key, VALUE), value)
            lines.write(leaf(key, COUNT), 1)
            lines.close_commit()
            lines.returns(1 if new else 2)

    def delete(self, caller, key):
        with caller.step() as lines:
            found = self._library.pop(key, None) is not None
            lines.call("delete", key)
            lines.write(leaf(key, COUNT), 0)
            lines.commit()
            lines.returns(found)

    def get(self, caller, key):
        caller.call("lookup", key)
        value = self._library.get(key)
        caller.returns(0 if value is None else value + 1)

    def get_in_two(self, caller, key, between):
        """The value, or 0 if there is none: what it was isn't what is replied."""
        caller.call("lookup", key)
        found = key in self._library
        between()
        value = self._library.get(key, 0)
        caller.returns(value + 1 if found else 0)


def correct(log, seed):
    library = Map()

    def play(caller, draw):
        key, kind = draw.randrange(KEYS), draw.randrange(4)
        if kind == 0:
            library.delete(caller, key)
        elif kind == 1:
            library.put(caller, key, draw.randrange(100))
        else:
            library.get(caller, key)

    together(log, play, seed)


def broken(log):
    library = Map()
    with log.caller() as one, log.caller() as other:
        library.put(one, 3, 10)
        library.get_in_two(one, 3, lambda: meanwhile(lambda: library.delete(other, 3)))


run(empty_leaves(KEYS), correct, broken)
