"""The specification in front of a log of version 3, read line by line as crates/vyrd_base/specs/Own defines it."""

import re
from typing import NamedTuple

from expressions import BAD_LINE, NAME_TAKEN, NO_CASE, NO_METHOD, OUT_OF_PLACE, TOO_LONG, TOO_MANY
from expressions import A_LIST, A_NEW_NAME, A_REGISTER, Reading, Refused, Scope

HEADER = re.compile("vyrd 3 own (0|[1-9][0-9]{0,4}) ([1-9][0-9]{0,2})")
MOST_WORDS, MOST_CALLERS = 65_536, 256
LONGEST = 200  # bytes of a line, without its line feed
LINES, CONSTANTS, REGISTERS, LISTS, METHODS = 1000, 64, 16, 16, 64
PARAMETERS, NAMES, CASES, CHANGES, SHOWS = 3, 16, 8, 8, 4
MOST_OF_PART = 16
LONGEST_NAME = 32

OF_PARTS = tuple(f"w{place}" for place in range(MOST_OF_PART))
RESERVED = tuple("none count if then else not least greatest first last length and or reply part log".split())
NAME = re.compile("[a-z][a-z0-9_]{0,31}")

# What may stand directly below a line.
LIST, PART, OTHER = "list", "part", "other"


class Let(NamedTuple):
    """A name for a value, or with the name None an answer, and the number of its line."""

    line: int
    name: str
    value: object


class Show(NamedTuple):
    """What a part gives, and to which key."""

    line: int
    key: object
    value: object


class Change(NamedTuple):
    """A line of a case. It has a key if it is about an amount, and a target if it is about a register or a list."""

    line: int
    text: str
    kind: str
    target: str = None
    key: object = None
    value: object = None

    @property
    def cell(self):
        """The kind of what it changes: amounts, a register or a list."""
        if self.kind == "clear all":
            return "shown"
        return self.kind if self.kind in ("shown", "hidden", "register") else "list"


class Case:
    """A case: the expression that allows a reply, and what is done then."""

    def __init__(self, line, allow):
        self.line, self.allow, self.changes = line, allow, []


class Method:
    """A method. Its names are those of its parameters and of its `let`s."""

    def __init__(self, line, name, parameters):
        self.line, self.name, self.parameters = line, name, parameters
        self.names, self.lets, self.answer, self.cases = list(parameters), [], None, []

    @property
    def is_closed(self):
        """Whether it has an answer or a case, so that no `let` may follow."""
        return bool(self.answer or self.cases)


class Specification:
    """What the lines of a specification have said so far."""

    def __init__(self):
        self.constants, self.registers, self.lists, self.hidden = {}, {}, {}, []
        self.part, self.shows, self.methods, self.by_name = 0, [], [], {}
        self.count, self.below, self.is_whole = 0, OTHER, False
        self.lines = {}  # of what has a name outside methods, and of `part`

    @property
    def method(self):
        """The last method, or None."""
        return self.methods[-1] if self.methods else None

    def take(self, line, text, length):
        """Takes a line in. One that is refused changes nothing. The line `log` ends the specification."""
        if text == "log":
            self._end()
            return
        if self.count >= LINES:
            raise Refused(TOO_MANY, 0)
        if length > LONGEST:
            raise Refused(TOO_LONG, LONGEST)
        if not is_remark(text):
            self._take(line, Reading(text))
            self.below = below(text)
        self.count += 1

    def _end(self):
        if not self.methods:
            raise Refused(NO_METHOD, 0)
        if not self.method.is_closed:
            raise Refused(NO_CASE, 0)
        self.is_whole = True

    def _take(self, line, reading):
        for begin, take in KINDS.items():
            if reading.take(begin):
                take(self, line, reading)
                return
        if not self.method:
            reading.refuse(OUT_OF_PLACE if reading.text.startswith("  ") else BAD_LINE)
        for begin, take in WITHIN.items():
            if reading.take(begin):
                take(self, line, reading)
                return
        reading.refuse()

    def why_not_filled(self, words):
        """Why so many words are no whole number of parts, or None if they are one."""
        if self.part and words % self.part:
            return f"the header has {words} words, and parts of {self.part} words don't fill them"
        return None

    def names_known(self):
        """The names that stand outside methods."""
        return (*self.constants, *self.registers, *self.lists)

    def _may(self, reading, is_misplaced, count, most):
        """Refuses a line that can't stand here, or one too many."""
        if is_misplaced:
            reading.refuse(OUT_OF_PLACE)
        if count >= most:
            reading.refuse(TOO_MANY)

    def constant(self, line, reading):
        """The line `let NAME NUMBER` outside methods."""
        past = self.registers or self.lists or self.hidden or self.part or self.methods
        self._may(reading, past, len(self.constants), CONSTANTS)
        name = new_name(reading, self.names_known())
        reading.want(" ")
        self.constants[name] = reading.last_number()
        self.lines[name] = line

    def register(self, line, reading):
        """The line `register NAME NUMBER`."""
        self._may(reading, self.methods, len(self.registers), REGISTERS)
        name = new_name(reading, self.names_known())
        reading.want(" ")
        self.registers[name] = reading.last_number()
        self.lines[name] = line

    def begin_list(self, line, reading):
        """The line `list NAME`."""
        self._may(reading, self.methods, len(self.lists), LISTS)
        name = new_name(reading, self.names_known())
        reading.end()
        self.lists[name] = []
        self.lines[name] = line

    def holds(self, _, reading):
        """The line `holds NUMBER` below a list."""
        self._may(reading, self.below != LIST, 0, 1)
        self.lists[list(self.lists)[-1]].append(reading.last_number())

    def hide(self, _, reading):
        """The line `hidden NUMBER NUMBER`."""
        self._may(reading, self.methods, 0, 1)
        key = reading.number()
        reading.want(" ")
        self.hidden.append((key, reading.last_number()))

    def begin_part(self, line, reading):
        """The line `part K`."""
        self._may(reading, self.part or self.methods, 0, 1)
        begin = reading.place
        part = reading.last_number()
        if not 1 <= part <= MOST_OF_PART:
            raise Refused(BAD_LINE, begin, f"a number from 1 to {MOST_OF_PART}")
        self.part, self.lines["part"] = part, line

    def show(self, line, reading):
        """The line `shows E E` below the part."""
        self._may(reading, self.below != PART, len(self.shows), SHOWS)
        scope = self.scope_of_part()
        key = reading.expression(scope)
        reading.want(" ")
        self.shows.append(Show(line, key, last_expression(reading, scope)))

    def scope_of_part(self):
        """What the expressions of `shows` see."""
        return Scope((*self.constants, "part", *OF_PARTS[: self.part]), (), False)

    def begin_method(self, line, reading):
        """The line `method NAME P1 P2 P3`."""
        if self.method and not self.method.is_closed:
            reading.refuse(NO_CASE)
        self._may(reading, False, len(self.methods), METHODS)
        name, parameters = new_name(reading, self.by_name), []
        while reading.place < len(reading.text):
            self._may(reading, False, len(parameters), PARAMETERS)
            reading.want(" ")
            parameters.append(new_name(reading, (*self.names_known(), *parameters)))
        self.methods.append(Method(line, name, parameters))
        self.by_name[name] = self.method

    def scope(self, *more):
        """What the expressions of the last method see."""
        return Scope((*self.constants, *self.registers, *self.method.names, *more), tuple(self.lists), True)

    def name(self, line, reading):
        """The line `let NAME E` of a method."""
        self._may(reading, self.method.is_closed, len(self.method.names), NAMES)
        name = new_name(reading, (*self.names_known(), *self.method.names))
        reading.want(" ")
        self.method.lets.append(Let(line, name, last_expression(reading, self.scope())))
        self.method.names.append(name)

    def answer(self, line, reading):
        """The line `answer E`."""
        self._may(reading, self.method.is_closed, 0, 1)
        self.method.answer = Let(line, None, last_expression(reading, self.scope()))

    def allow(self, line, reading):
        """The line `allow E`."""
        self._may(reading, False, len(self.method.cases), CASES)
        self.method.cases.append(Case(line, last_expression(reading, self.scope("reply"))))

    def change(self, line, reading):
        """A line of a case, behind its four spaces."""
        cases = self.method.cases
        self._may(reading, not cases, len(cases[-1].changes) if cases else 0, CHANGES)
        cases[-1].changes.append(self._change(line, reading))

    def _change(self, line, reading):
        text, scope = reading.text[reading.place :], self.scope("reply")
        for kind, begin, middle in (("shown", "set [", "] "), ("hidden", "set {", "} ")):
            if reading.take(begin):
                key = reading.expression(scope)
                reading.want(middle)
                return Change(line, text, kind, key=key, value=last_expression(reading, scope))
        for kind, begin in (("register", "set "), *((kind, f"{kind} ") for kind in PUTS)):
            if reading.take(begin):
                is_register = kind == "register"
                name = reading.name(*((self.registers, A_REGISTER) if is_register else (self.lists, A_LIST)))
                reading.want(" ")
                return Change(line, text, kind, name, value=last_expression(reading, scope))
        if text == "clear":
            return Change(line, text, "clear all")
        for kind in PLAIN:
            if reading.take(f"{kind} "):
                name = reading.name(self.lists, A_LIST)
                reading.end()
                return Change(line, text, kind, name)
        return reading.refuse()


PUTS, PLAIN = ("append", "prepend"), ("drop first", "drop last", "clear")

# The lines outside methods, and those within one, by how they begin; in this order they are looked for.
KINDS = {
    "let ": Specification.constant,
    "register ": Specification.register,
    "list ": Specification.begin_list,
    "  holds ": Specification.holds,
    "hidden ": Specification.hide,
    "part ": Specification.begin_part,
    "  shows ": Specification.show,
    "method ": Specification.begin_method,
}
WITHIN = {
    "    ": Specification.change,
    "  let ": Specification.name,
    "  answer ": Specification.answer,
    "  allow ": Specification.allow,
}


def is_remark(text):
    """Whether a line says nothing."""
    return text == "" or text.startswith("#")


def is_note(text, length):
    """Whether a line says nothing where entries stand."""
    return text.startswith("#") and length <= LONGEST


def below(text):
    """What may stand directly below a line that says something."""
    if text.startswith(("list ", "  holds ")):
        return LIST
    return PART if text.startswith(("part ", "  shows ")) else OTHER


def is_name(word):
    """Whether a word may be a name."""
    return NAME.fullmatch(word) is not None and word not in RESERVED and word not in OF_PARTS


def new_name(reading, taken):
    """Goes on over a name that is new."""
    word = reading.word()
    if not is_name(word):
        reading.refuse(wanted=A_NEW_NAME)
    if word in taken:
        reading.refuse(NAME_TAKEN)
    reading.place += len(word)
    return word


def last_expression(reading, scope):
    """Goes on over an expression that is all that is left."""
    found = reading.expression(scope)
    reading.end()
    return found


def sizes_in(header):
    """How many words and callers a header of version 3 says, or None if a line is none."""
    found = HEADER.fullmatch(header)
    if not found or int(found[1]) > MOST_WORDS or int(found[2]) > MOST_CALLERS:
        return None
    return int(found[1]), int(found[2])


def rule_of_unended(specification, length):
    """The rule that a line of a specification breaks by its length alone, if no line feed ends it, or None."""
    if length <= LONGEST:
        return None
    return TOO_MANY if specification.count >= LINES else TOO_LONG
