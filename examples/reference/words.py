"""What the words of a log show, and what calls do to one key, as docs/LOG-FORMAT.md says."""

from names import DAMAGE, PART_WORDS, ROOM, SHOWN, characters_of, keys_of

NO_CHARACTER = 255  # the least number that is no character
WRITING = ("append", "append_from", "cut")  # the methods of buffers that change a text


class Words:
    """The words of a structure. They begin as the starting words say, and change with the effects of writes."""

    def __init__(self, subject, size, starting):
        self.subject, self.size, self.values = subject, size, dict(starting)

    def __getitem__(self, word):
        return self.values.get(word, 0)

    def __setitem__(self, word, value):
        self.values[word] = value

    def amount(self, key):
        """The amount that the words show at a key."""
        by_subject = {"multiset": self._elements, "cache": self._chunk, "tree": self._leaves, "buffers": self._text}
        return by_subject[self.subject](key)

    def slot_amount(self, slot, key):
        """How often one slot of a multiset shows an element."""
        return int(slot < 4 * self.size and self[2 * slot] == 2 and self[2 * slot + 1] == key)

    def _elements(self, key):
        return sum(self.slot_amount(slot, key) for slot in range(4 * self.size))

    def _chunk(self, key):
        state, *halves = (self[5 * (key % self.size) + offset] for offset in range(5))
        cached, stored = halves[:2], halves[2:]
        broken = state > 2 or any(half >= SHOWN for half in halves)
        if key >= self.size:
            return 2 if broken else int(state == 1 and cached != stored)
        low, high = cached if state in (1, 2) else stored
        return 0 if broken else (high << 32) + low

    def _text(self, key):
        first = 8 * (key % self.size)
        count = self[first]
        text = [self[first + 1 + place] for place in range(min(count, ROOM))]
        broken = count > ROOM or any(character >= NO_CHARACTER for character in text)
        if key >= self.size:
            return int(broken)
        return 0 if broken else text_of(text)

    def leaf_amount(self, node, key):
        """What one node of a tree shows at a key, if it is one of the chain."""
        return sum(amount for shown, amount in self._entries(node) if shown == key)

    def _entries(self, node):
        """What the entries of a tree's node show, as pairs of a key and an amount."""
        for place in range(min(self[12 * node + 1], 4)):
            entry, value = self[12 * node + 4 + place], self[12 * node + 8 + place]
            is_sound = entry < SHOWN and value < SHOWN
            yield (entry, SHOWN + value) if is_sound else (DAMAGE, 1)

    def given_by(self, part):
        """What a slot, a chunk or a buffer shows, or a node of the chain, as pairs of a key and an amount."""
        if self.subject == "multiset":
            return [(self[2 * part + 1], 1)] if self[2 * part] == 2 else []
        if self.subject == "tree":
            return list(self._entries(part))
        return [(key, self.amount(key)) for key in (part, self.size + part)]

    def chain(self):
        """The nodes of a tree from node 0 along the right words, and whether the last one's leads out of them or back."""
        nodes, node = {}, 0
        while True:
            nodes[node] = None
            node = self[12 * node + 3]
            if node == 0 or node >= self.size or node in nodes:
                return list(nodes), node != 0

    def _leaves(self, key):
        nodes, is_broken = self.chain()
        return sum(self.leaf_amount(node, key) for node in nodes) + (is_broken and key == DAMAGE)


class State:
    """The specification's state, from the one that the words show at the start on: the amounts at the keys that are asked for.

    The text of a buffer may come from any other one, so of buffers all are kept.
    """

    def __init__(self, words, keys):
        self.subject = words.subject
        others = range(words.size) if self.subject == "buffers" else ()
        self.amounts = {key: words.amount(key) for key in {*keys, *others}}

    def __getitem__(self, key):
        return self.amounts[key]

    def take(self, execution):
        """The state after this call, by its reply."""
        keys = [key for key in keys_of(execution) if key in self.amounts]
        self.amounts.update({key: after(self.subject, execution, key, self) for key in keys})


def text_of(characters):
    """A text as one number: character i counts (character + 1) * 256^i."""
    return sum((character + 1) << 8 * place for place, character in enumerate(characters))


def after(subject, execution, key, state):
    """The amount at a key after a call, by its reply, if the state before has the amounts of `state`."""
    method, arguments, reply, amount = execution.method, execution.arguments, execution.reply, state[key]
    if key not in keys_of(execution) or not reply:
        return amount
    if subject == "multiset":
        return amount + {"insert": 1, "insert_pair": arguments.count(key), "delete": -1}.get(method, 0)
    if subject == "cache":
        return (arguments[2] << 32) + arguments[1] if method == "write" else amount
    if subject == "buffers":
        is_written = key == arguments[0] and method in WRITING
        return text_after(method, arguments, state) if is_written else amount
    return {"insert": SHOWN + arguments[-1], "delete": 0}.get(method, amount)


def text_after(method, arguments, state):
    """The text of a call's buffer after it, if it did what it says. It shows no more than one character too many."""
    text = characters_of(state[arguments[0]])
    if method == "cut":
        return text_of(text[: arguments[1]])
    return text_of((text + appended(method, arguments, state))[: ROOM + 1])


def appended(method, arguments, state):
    """The characters that a call appends."""
    return [arguments[1]] if method == "append" else characters_of(state[arguments[1]])


def answer(subject, method, amount):
    """What an observer answers if its key has this amount."""
    if subject == "multiset":
        return min(amount, 1)
    if subject == "cache":
        return amount
    if subject == "buffers":
        return len(characters_of(amount)) if method == "length" else amount
    return amount - SHOWN + 1 if amount else 0


def allowed(subject, execution, key, state):
    """The replies that a mutator may give in this state, as far as this key of its call decides it."""
    method, arguments, amount = execution.method, execution.arguments, state[key]
    if subject == "cache" or method == "cut":
        return "1"
    if subject == "buffers":
        length = len(characters_of(state[arguments[0]])) + len(appended(method, arguments, state))
        return "1" if length <= ROOM else "0"
    if method == "delete":
        return "1" if amount else "0"
    if subject == "multiset":
        return "1 or 0"
    return "2 or 0" if amount else "1 or 0"
