"""Expressions of a specification of the user's own: which text spells one. Here they are read, and not evaluated.

They are those of crates/vyrd_base/specs/Own: each has one spelling, so that an expression keeps the text that it was read from.
"""

import re
from typing import NamedTuple

NONE = (1 << 64) - 1  # the greatest number, for which `none` stands
DEEPEST = 32  # so many expressions may stand one within the other

# The rules of a specification's text, by the names that the program gives them.
TOO_LONG, BAD_LINE, OUT_OF_PLACE = "line too long", "bad specification line", "line out of place"
NAME_TAKEN, UNKNOWN_NAME, TOO_MANY = "name taken", "unknown name", "too many"
TOO_DEEP, STATE_IS_READ = "too deep", "state is read here"
NO_CASE, NO_METHOD = "method without a case", "no method"

WORD = re.compile("[a-z0-9_]*")
LETTERS = tuple("abcdefghijklmnopqrstuvwxyz")

# What a reading may want.
A_NUMBER, AN_EXPRESSION, A_LIST, A_REGISTER = "a number", "an expression", "the name of a list", "the name of a register"
A_NEW_NAME = "a new name"


# The operations, in the order in which they are looked for.
OPERATIONS = ("+", "-", "*", "/", "%", "==", "!=", "<", "<=", ">", ">=", "and", "or")
COMPARISONS = ("==", "!=", "<", "<=", ">", ">=")
OF_AMOUNTS, OF_LISTS = ("least", "greatest"), ("first", "last", "length")


def worth(value):
    """A number as a specification spells it."""
    return "none" if value == NONE else str(value)


class Refused(Exception):
    """What a line is refused with: the rule that it breaks, the place in it where that was seen, from 0 on, and what is wanted."""

    def __init__(self, rule, place, wanted=None):
        super().__init__(rule)
        self.rule, self.place, self.wanted = rule, place, wanted


class Scope(NamedTuple):
    """The names of values and of lists that an expression may speak of, and whether it may read the state."""

    names: tuple
    lists: tuple
    reads: bool


class Expression:
    """An expression by its kind, which is its operation if it has one, with its parts, and the number or name that it has."""

    __slots__ = ("kind", "text", "parts", "word")

    def __init__(self, kind, text, parts=(), word=None):
        self.kind, self.text, self.parts, self.word = kind, text, parts, word

    def __str__(self):
        return self.text


class Reading:
    """A line that is read from a place on. What can't be read is refused, with the place that the reading has come to."""

    def __init__(self, text, place=0):
        self.text, self.place = text, place

    def refuse(self, rule=BAD_LINE, wanted=None):
        """Refuses the line at this place, where this should stand."""
        raise Refused(rule, self.place, wanted)

    def take(self, word):
        """Goes on over a word, and says whether it was there."""
        is_there = self.text.startswith(word, self.place)
        self.place += len(word) * is_there
        return is_there

    def want(self, word):
        """Goes on over a word that has to be there."""
        if not self.take(word):
            self.refuse(wanted="a space" if word == " " else f"`{word}`")

    def end(self):
        """The line has to end here."""
        if self.place < len(self.text):
            self.refuse(wanted="the end of the line")

    def word(self):
        """The letters, digits and `_` at this place."""
        return WORD.match(self.text, self.place)[0]

    def number(self):
        """Goes on over a number below `none`."""
        number = number_in(self.word())
        if number is None:
            self.refuse(wanted=A_NUMBER)
        self.place += len(self.word())
        return number

    def last_number(self):
        """Goes on over a number that is all that is left."""
        number = number_in(self.text[self.place :])
        if number is None:
            self.refuse(wanted=A_NUMBER)
        self.place = len(self.text)
        return number

    def name(self, names, wanted):
        """Goes on over one of these names, which are those of what is wanted."""
        word = self.word()
        if word not in names:
            self.refuse(UNKNOWN_NAME if self.text[self.place : self.place + 1] in LETTERS else BAD_LINE, wanted)
        self.place += len(word)
        return word

    def expression(self, scope, depth=DEEPEST):
        """Goes on over an expression."""
        begin = self.place
        if depth == 0:
            self.refuse(TOO_DEEP)
        if self.take("("):
            kind, parts, word = self._in_brackets(scope, depth - 1)
        elif self.text.startswith(("[", "{"), begin):
            self._read_state(scope)
            kind, close = ("shown", "]") if self.text[begin] == "[" else ("hidden", "}")
            self.place += 1
            parts, word = (self.expression(scope, depth - 1),), None
            self.want(close)
        else:
            kind, parts, word = self._of_one_word(scope)
        return Expression(kind, self.text[begin : self.place], parts, word)

    def _read_state(self, scope):
        if not scope.reads:
            self.refuse(STATE_IS_READ)

    def _of_one_word(self, scope):
        """`none`, `count`, a number or a name."""
        word = self.word()
        if word == "count":
            self._read_state(scope)
            kind, found = "count", None
        elif word == "none" or number_in(word) is not None:
            kind, found = "number", NONE if word == "none" else number_in(word)
        else:
            return "name", (), self.name(scope.names, AN_EXPRESSION)
        self.place += len(word)
        return kind, (), found

    def _in_brackets(self, scope, depth):
        """What stands behind a round bracket, up to the one that closes it."""
        word, begin = self.word(), self.place
        is_one = word in ("if", "not", *OF_AMOUNTS, *OF_LISTS) and self.take(f"{word} ")
        if is_one and word in (*OF_AMOUNTS, *OF_LISTS) and not scope.reads:
            raise Refused(STATE_IS_READ, begin)
        if is_one and word in OF_LISTS:
            kind, parts, name = word, (), self.name(scope.lists, A_LIST)
        elif is_one:
            kind, parts, name = word, self._spaced(scope, depth, ("then", "else") if word == "if" else ()), None
        else:
            first = self.expression(scope, depth)
            kind, name = self._operation(), None
            parts = (first, self.expression(scope, depth))
        self.want(")")
        return kind, parts, name

    def _spaced(self, scope, depth, words):
        """Expressions with these words between them."""
        parts = [self.expression(scope, depth)]
        for word in words:
            self.want(f" {word} ")
            parts.append(self.expression(scope, depth))
        return tuple(parts)

    def _operation(self):
        for operation in OPERATIONS:
            if self.take(f" {operation} "):
                return operation
        return self.refuse(wanted="an operation between two spaces")


def number_in(word):
    """The number below `none` that a word spells, or None."""
    if not re.fullmatch("0|[1-9][0-9]{0,19}", word) or int(word) >= NONE:
        return None
    return int(word)
