"""What a specification of the user's own says of states, of calls and of words. It is what crates/vyrd_base/specs/Own defines."""

from bisect import bisect_left, bisect_right, insort
from collections import deque
from typing import NamedTuple

import evaluation  # noqa: F401: it gives expressions their values
from expressions import NONE


class Amounts:
    """Amounts by key. A key without one has the amount 0."""

    def __init__(self):
        self.by_key, self.rising = {}, None  # the keys in their order, once they are asked for

    def __getitem__(self, key):
        return self.by_key.get(key, 0)

    def __setitem__(self, key, amount):
        is_new = key not in self.by_key
        if amount:
            self.by_key[key] = amount
            if is_new and self.rising is not None:
                insort(self.rising, key)
        elif not is_new:
            del self.by_key[key]
            if self.rising is not None:
                del self.rising[bisect_left(self.rising, key)]

    def __len__(self):
        return len(self.by_key)

    def clear(self):
        self.by_key, self.rising = {}, None

    def _keys(self):
        if self.rising is None:
            self.rising = sorted(self.by_key)
        return self.rising

    def least_from(self, key):
        """The least key from this one on, or `none`."""
        place = bisect_left(self._keys(), key)
        return self.rising[place] if place < len(self.rising) else NONE

    def greatest_to(self, key):
        """The greatest key up to this one, or `none`."""
        place = bisect_right(self._keys(), key)
        return self.rising[place - 1] if place else NONE


class Effect(NamedTuple):
    """What a line of a case does, in numbers: to which key, register or list, and which number it brings."""

    change: object
    target: object
    value: int

    @property
    def cell(self):
        """What of a state it changes."""
        return (self.change.cell, self.target)


class State:
    """A state of a specification. At the start it shows what the words show; all else stands in the specification."""

    def __init__(self, specification, view=()):
        self.shown, self.hidden = Amounts(), Amounts()
        self.registers = dict(specification.registers)
        self.lists = {name: deque(items) for name, items in specification.lists.items()}
        for key, amount in specification.hidden:
            self.hidden[key] = amount
        for key, amount in dict(view).items():
            self.shown[key] = amount

    def amounts(self, cell):
        """The shown or the hidden amounts."""
        return self.shown if cell == "shown" else self.hidden

    def do(self, effect):
        """Does what a line of a case says."""
        kind, target, value = effect.change.kind, effect.target, effect.value
        if kind in ("shown", "hidden"):
            self.amounts(kind)[target] = value
        elif kind == "register":
            self.registers[target] = value
        elif kind == "clear all":
            self.shown.clear()
        else:
            self._do_to_list(kind, self.lists[target], value)

    def _do_to_list(self, kind, items, value):
        if kind == "append":
            items.append(value)
        elif kind == "prepend":
            items.appendleft(value)
        elif kind == "clear":
            items.clear()
        elif items:
            items.popleft() if kind == "drop first" else items.pop()


class Step(NamedTuple):
    """What a call with its reply does: by which case, and what its lines do, all of it computed in the state before."""

    case: object
    effects: list


def names_in(specification, method, state, arguments):
    """What has a name in a method: constants, registers, arguments, and each `let`, which sees those before it."""
    names = {**specification.constants, **state.registers, **dict(zip(method.parameters, arguments))}
    for let in method.lets:
        names[let.name] = let.value.value(state, names)
    return names


def step_of(specification, method, state, arguments, reply):
    """What the first case does that allows the reply, or None if none does."""
    names = {**names_in(specification, method, state, arguments), "reply": reply}
    for case in method.cases:
        if case.allow.value(state, names):
            return Step(case, [effect_of(change, state, names) for change in case.changes])
    return None


def effect_of(change, state, names):
    """What a line of a case does in a state."""
    target = change.key.value(state, names) if change.key else change.target
    return Effect(change, target, change.value.value(state, names) if change.value else None)


def answer_of(specification, method, state, arguments):
    """What an execution that commits nothing has to reply. It is `none`, which no reply is, if the method has no answer."""
    if not method.answer:
        return NONE
    return method.answer.value.value(state, names_in(specification, method, state, arguments))


class View:
    """The words of a log and what they show by its specification. A word is 0 that wasn't written."""

    def __init__(self, specification, starting):
        self.specification, self.values = specification, dict(starting)
        self.of_part = specification.part

    def __getitem__(self, word):
        return self.values.get(word, 0)

    def __setitem__(self, word, value):
        self.values[word] = value

    def words_of(self, part):
        """The values of a part's words."""
        first = self.of_part * part
        return [self[word] for word in range(first, first + self.of_part)]

    def given_by(self, part):
        """What a part gives, as pairs of a key and an amount for each `shows`. It is nothing if its words are all 0."""
        values = self.words_of(part)
        if not any(values):
            return []
        names = {**self.specification.constants, "part": part}
        names.update((f"w{place}", value) for place, value in enumerate(values))
        return [(show.key.value(None, names), show.value.value(None, names)) for show in self.specification.shows]

    def given_to(self, part, key):
        """What a part gives to one key."""
        return sum(amount for given, amount in self.given_by(part) if given == key)

    def parts(self):
        """The parts with a word that isn't 0."""
        if not self.of_part:
            return []
        return sorted({word // self.of_part for word, value in self.values.items() if value})

    def amounts(self):
        """All that the words show, by key. An amount may be greater than a number of a specification."""
        shown = {}
        for part in self.parts():
            for key, amount in self.given_by(part):
                shown[key] = shown.get(key, 0) + amount
        return {key: amount for key, amount in shown.items() if amount}


def why_no_start(specification, words, shown):
    """Why so many words, which show these amounts at the start, stand for no state, or None if they stand for one."""
    if why := specification.why_not_filled(words):
        return why
    for key, amount in sorted(shown.items()):
        if amount > NONE:
            return f"the words at the start show {amount} at key {key}, and amounts are below 2^64"
    return None
