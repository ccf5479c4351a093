"""What the steps of a specification do, in the words in which `vyrd explain` and `vyrd follow` tell it."""

from collections import Counter
from typing import NamedTuple

import steps
from reasons import worth
from words import after, allowed, keys_of

CLEARED = ("shown", None)


class Doing(NamedTuple):
    """What a step does: what of the state it sets, and how that is told."""

    cell: tuple
    told: str

    def does_set(self, cell):
        """Whether it sets this."""
        return self.cell == cell or (self.cell == CLEARED and cell[0] == "shown")


def amount_set(kind, key, amount):
    """An amount that is shown or hidden gets another value, or the same one."""
    return Doing((kind, key), f"{'hidden ' * (kind == 'hidden')}key {key} amount {amount}")


class BuiltIn:
    """The specification of a structure that is built in, in the state that has these amounts."""

    def __init__(self, subject, amounts):
        self.subject, self.amounts = subject, Counter(amounts)

    def step(self, execution):
        """Makes the step of an execution that has returned, and gives what it does. It is None if the reply isn't allowed."""
        keys = dict.fromkeys(keys_of(execution))
        right = allowed(self.subject, execution, execution.arguments[0], self.amounts).split(" or ")
        if str(execution.reply) not in right:
            return None
        amounts = {key: after(self.subject, execution, key, self.amounts) for key in keys}
        changed = {key: amount for key, amount in amounts.items() if amount != self.amounts[key]}
        for key, amount in changed.items():
            self.amounts[key] = amount
        return [amount_set("shown", key, amount) for key, amount in changed.items()]


class Own:
    """A specification of the user's own, in the state that shows these amounts."""

    def __init__(self, specification, amounts):
        self.specification, self.state = specification, steps.State(specification, amounts)
        self.places = {
            "register": list(specification.registers).index,
            "list": list(specification.lists).index,
        }

    def step(self, execution):
        """Makes the step of an execution that has returned, and gives what it does. It is None if the reply isn't allowed."""
        method = self.specification.by_name[execution.method]
        step = steps.step_of(self.specification, method, self.state, execution.arguments, execution.reply)
        if not step:
            return None
        for effect in step.effects:
            self.state.do(effect)
        return [self._told(effect) for effect in step.effects]

    def _told(self, effect):
        """What a line of a case does."""
        kind, (what, target) = effect.change.kind, effect.cell
        if kind == "clear all":
            return Doing(CLEARED, "clear")
        if what in ("shown", "hidden"):
            return amount_set(what, target, effect.value)
        number = self.places[what](target)
        change = "value" if what == "register" else kind
        brought = "" if effect.value is None else f" {worth(effect.value)}"
        return Doing((what, number), f"{what} {number} {change}{brought}")


def specified(log, amounts):
    """The specification of a log, in the state that shows these amounts."""
    return Own(log.specification, amounts) if log.specification else BuiltIn(log.subject, amounts)
