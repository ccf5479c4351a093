"""Which parts of an expression count for its value."""

from expressions import worth  # noqa: F401: those who ask for parts spell numbers too


def parts_at(expression, state, names):
    """The parts that count for the value: of a choice the test and what it leads to."""
    parts = expression.parts
    if expression.kind == "if":
        return parts[0], parts[1] if parts[0].value(state, names) else parts[2]
    return parts
