"""What expressions of a specification of the user's own are worth in a state. It is what crates/vyrd_base/specs/Own defines.

tools/ read expressions, and evaluate none. Here each gets its value.
"""

import operator

from expressions import NONE, OF_LISTS, Expression


def capped(operation):
    """An operation that stops at the greatest number."""
    return lambda a, b: min(operation(a, b), NONE)


def flag(test):
    """A test as an operation: 1 for what holds and 0 for what doesn't."""
    return lambda a, b: int(test(a, b))


WORTH = {
    "+": capped(operator.add),
    "-": lambda a, b: max(a - b, 0),
    "*": capped(operator.mul),
    "/": lambda a, b: a // b if b else 0,
    "%": lambda a, b: a % b if b else 0,
    "==": flag(operator.eq),
    "!=": flag(operator.ne),
    "<": flag(operator.lt),
    "<=": flag(operator.le),
    ">": flag(operator.gt),
    ">=": flag(operator.ge),
    "and": flag(lambda a, b: bool(a and b)),
    "or": flag(lambda a, b: bool(a or b)),
}


def value(expression, state, names):
    """What it is worth in a state, if these names have these values."""
    kind = expression.kind
    if kind == "number":
        return expression.word
    if kind == "name":
        return names[expression.word]
    if kind == "count":
        return len(state.shown)
    if kind in OF_LISTS:
        return of_list(kind, state.lists[expression.word])
    values = [part.value(state, names) for part in expression.parts]
    if kind in WORTH:
        return WORTH[kind](*values)
    if kind == "if":
        return values[1] if values[0] else values[2]
    if kind == "not":
        return int(not values[0])
    return of_amounts(kind, values[0], state)


def of_list(kind, items):
    """What is said of a list."""
    if kind == "length":
        return len(items)
    return items[0 if kind == "first" else -1] if items else NONE


def of_amounts(kind, key, state):
    """What is said of amounts, by a key."""
    if kind == "shown":
        return state.shown[key]
    if kind == "hidden":
        return state.hidden[key]
    return state.shown.least_from(key) if kind == "least" else state.shown.greatest_to(key)


Expression.value = value
