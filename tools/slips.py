"""What is wrong with the lines of a specification, and what may be meant: for lint, which goes on after the first mistake."""

import re

from expressions import A_LIST, A_NEW_NAME, A_NUMBER, A_REGISTER, AN_EXPRESSION, BAD_LINE, DEEPEST, NAME_TAKEN, NO_CASE, NO_METHOD
from expressions import NONE, OUT_OF_PLACE, STATE_IS_READ, TOO_DEEP, TOO_LONG, TOO_MANY, UNKNOWN_NAME, WORD, Expression, Refused
from logtext import ENTRY, START, shown
from loose import meant, nearest
from specification import CASES, CHANGES, CONSTANTS, KINDS, LINES, LISTS, LONGEST, LONGEST_NAME, METHODS, NAMES, OF_PARTS
from specification import PARAMETERS, PART, REGISTERS, RESERVED, SHOWS, WITHIN, Case, Let, Method, Specification, is_name

MOST = 20  # lines for which it is looked what may be meant

# Where a line can stand, and how many of its kind there may be.
PLACES = {
    "let ": "constants stand before registers, lists, hidden amounts, the part and methods",
    "register ": "registers stand before the methods",
    "list ": "lists stand before the methods",
    "  holds ": "`holds` stands directly below its list, or below another `holds` of it",
    "hidden ": "hidden amounts stand before the methods",
    "  shows ": "`shows` stands directly below `part`, or below another `shows`",
    "    ": "a change stands below an `allow`",
    "  let ": "a `let` of a method stands before its answer and its cases",
    "  answer ": "a method has one answer at most, before its cases",
}
LIMITS = {
    "let ": f"there are {CONSTANTS} constants at most",
    "register ": f"there are {REGISTERS} registers at most",
    "list ": f"there are {LISTS} lists at most",
    "  shows ": f"there are {SHOWS} `shows` at most",
    "  let ": f"a method has {NAMES} names at most, its parameters among them",
    "  allow ": f"a method has {CASES} cases at most",
    "    ": f"a case has {CHANGES} changes at most",
}
OUTSIDE = "`let`, `register`, `list`, `  holds`, `hidden`, `part`, `  shows`, `method` or `log`"
INSIDE = "`  let`, `  answer`, `  allow`, a change behind four spaces, `method` or `log`"


class Slips:
    """The lines of a specification so far, as they are meant."""

    def __init__(self):
        self.said, self.found, self.is_over = Specification(), 0, False

    def fault(self, number, line, length):
        """What is wrong with the next line, or None. What may be meant is taken for it, so that one mistake is said once."""
        try:
            self.said.take(number, line, length)
            self.is_over = self.said.is_whole
            return None
        except Refused as refused:
            self.found += 1
            return self._told(number, line, length, refused)

    def _told(self, number, line, length, refused):
        rule, at = refused.rule, f"{refused.rule} at column {refused.place + 1}"
        if rule == BAD_LINE and is_of_log(line):
            self.is_over = True
            return f"{at}: the line `log` is missing above it: here the specification ends, and what is logged begins"
        is_known = self.found <= MOST and length <= LONGEST and rule in (BAD_LINE, UNKNOWN_NAME, OUT_OF_PLACE)
        line_meant = meant(self.said, number, line) if is_known else None
        why = self._why(line, length, refused)
        if line_meant:
            self.said.take(number, line_meant, len(line_meant))
        else:
            self._recover(number, line, rule)
        self.is_over = self.said.is_whole
        return f"{at}: {why}" + (f"; `{line_meant}` is meant?" if line_meant else "")

    def _why(self, line, length, refused):
        """Why a line breaks the rule."""
        rule, kind, rest = refused.rule, kind_of(line), line[refused.place :]
        if rule == TOO_LONG:
            return f"the line has {length} bytes; {LONGEST} are the most"
        if rule == TOO_DEEP:
            return f"expressions stand at most {DEEPEST} deep one within the other"
        if rule == STATE_IS_READ:
            return "`shows` sees constants, `part` and the part's words, and not the state"
        if rule == NO_METHOD:
            return "a specification has one method at least"
        if rule == NO_CASE:
            return f"the method `{self.said.method.name}` on line {self.said.method.line} has neither `answer` nor `allow`"
        if rule == OUT_OF_PLACE:
            return self._of_place(kind)
        if rule == NAME_TAKEN:
            return self._of_taken(kind, WORD.match(rest)[0])
        if rule == UNKNOWN_NAME:
            return self._of_unknown(kind, WORD.match(rest)[0], refused.wanted)
        if rule == TOO_MANY:
            return self._of_limit(kind)
        return self._of_bad(line, rest, refused.wanted)

    def _of_place(self, kind):
        if kind == "part ":
            line = self.said.lines.get("part")
            return f"there is one `part` at most, and it is on line {line}" if line else "the part stands before the methods"
        return PLACES.get(kind, "no method has begun above it")

    def _of_limit(self, kind):
        if self.said.count >= LINES:
            return f"a specification has {LINES:,} lines at most"
        if kind == "method ":
            is_full = len(self.said.methods) >= METHODS
            return f"there are {METHODS} methods at most" if is_full else f"a method has {PARAMETERS} parameters at most"
        return LIMITS[kind]

    def _of_taken(self, kind, name):
        said = self.said
        if kind == "method " and name in said.by_name and name not in said.names_known():
            return f"`{name}` is the method on line {said.by_name[name].line}"
        for what, names in (("constant", said.constants), ("register", said.registers), ("list", said.lists)):
            if name in names:
                return f"`{name}` is the {what} on line {said.lines[name]}"
        if kind == "method ":
            return f"`{name}` is a parameter of this method already"
        lets = [let.line for let in said.method.lets if let.name == name]
        return f"`{name}` is the `let` on line {lets[0]}" if lets else f"`{name}` is a parameter of this method"

    def _of_unknown(self, kind, name, wanted):
        """Why a name isn't known: it is of another kind, or known elsewhere, or not at all."""
        said = self.said
        is_of_method = kind in ("    ", *WITHIN)
        if wanted == AN_EXPRESSION and name in said.lists:
            return f"`{name}` is a list: `(first {name})`, `(last {name})` and `(length {name})` are its values"
        if wanted in (A_LIST, A_REGISTER):
            return self._of_other_kind(name, wanted)
        if name == "reply":
            return "`reply` is known in a method's `allow` and below it"
        if name in ("part", *OF_PARTS):
            is_in_part = kind == "  shows "
            known = f"a part has the words w0 to w{said.part - 1}" if is_in_part else "the words of a part are known in `shows`"
            return f"there is no `{name}` here: {known}"
        if kind == "  shows ":
            return f"`{name}` is no constant, and `shows` sees none but constants, `part` and the part's words"
        scope = said.scope("reply") if is_of_method and said.method else None
        near = nearest(name, scope.names) if scope else None
        return f"there is no `{name}` here" + (f", but there is `{near}`" if near else "")

    def _of_other_kind(self, name, wanted):
        said, what = self.said, wanted.removeprefix("the name of a ")
        for other, names in (("constant", said.constants), ("register", said.registers), ("list", said.lists)):
            if name in names:
                return f"`{name}` is the {other} on line {said.lines[name]}, and {wanted} is wanted"
        return f"there is no {what} `{name}`"

    def _of_bad(self, line, rest, wanted):
        """Why a line is none."""
        if line.endswith("\r"):
            return "it ends with a carriage return: lines end with a line feed alone"
        if "\t" in line:
            return "it has a tab: lines begin with spaces, and words are separated by one space"
        if re.search("[^ -~]", line):
            return "it has a byte that is no printable ASCII character"
        if line.lstrip().startswith(("#", "//")):
            return "a line that says nothing begins with `#`, without a space before it"
        if not wanted:
            return f"a line begins with {INSIDE if self.said.method else OUTSIDE}"
        here = f"and here is `{shown(rest)}`" if rest else "and the line ends here"
        if wanted == A_NEW_NAME and rest:
            return why_no_name(WORD.match(rest)[0] or rest.partition(" ")[0])
        if wanted == A_NUMBER and re.match("[0-9]", rest):
            return f"{wanted} is wanted, without a leading zero and below {NONE}, {here}"
        return f"{wanted} is wanted, {here}"

    def _recover(self, number, line, rule):
        """Takes of a line what can be told of it, so that the lines below aren't wrong on its account."""
        said, kind = self.said, kind_of(line)
        if line == "log":
            self.is_over = said.is_whole = True
            return
        if rule == TOO_MANY and said.count >= LINES:
            said.count = 0
        names = re.findall("[a-z][a-z0-9_]*", line[len(kind) :]) if kind else []
        name = names[0] if names and is_name(names[0]) else None
        zero = Expression("number", "0", word=0)
        if rule == NO_CASE:
            said.method.answer = Let(number, None, zero)
            if not self._takes(number, line):
                self._recover(number, line, None)
        elif kind in ("let ", "register ", "list ") and name and name not in said.names_known():
            names_of = {"let ": said.constants, "register ": said.registers, "list ": said.lists}[kind]
            names_of[name] = [] if kind == "list " else 0
            said.lines[name] = number
        elif kind == "part " and not said.part:
            said.part, said.lines["part"], said.below = len(OF_PARTS), number, PART
        elif kind == "method ":
            self._begin_method(number, names)
        elif kind == "  let " and name and said.method and name not in said.method.names:
            said.method.names.append(name)
            said.method.lets.append(Let(number, name, zero))
        elif kind == "  answer " and said.method and not said.method.answer:
            said.method.answer = Let(number, None, zero)
        elif kind == "  allow " and said.method:
            said.method.cases.append(Case(number, zero))

    def _begin_method(self, number, names):
        said = self.said
        parameters = [name for name in dict.fromkeys(names[1:]) if is_name(name) and name not in said.names_known()]
        said.methods.append(Method(number, names[0] if names else "", parameters))
        said.by_name.setdefault(said.method.name, said.method)

    def _takes(self, number, line):
        """Whether a line can be taken now."""
        try:
            self.said.take(number, line, len(line))
            return True
        except Refused:
            return False


def kind_of(line):
    """How a line begins that is one by its beginning, or an empty text."""
    return next((begin for begin in (*KINDS, *WITHIN) if line.startswith(begin)), "")


def is_of_log(line):
    """Whether a line is one that stands behind the specification."""
    return line == "end" or ENTRY.fullmatch(line) is not None or START.fullmatch(line) is not None


def why_no_name(word):
    """Why a word is no name."""
    if word in RESERVED:
        return f"`{word}` is a word of the language, and no name"
    if word in OF_PARTS:
        return f"`{word}` is a word of a part, and no name"
    if len(word) > LONGEST_NAME:
        return f"a name has {LONGEST_NAME} letters at most, and `{shown(word)}` has {len(word)}"
    return f"a name has small letters, digits and `_`, and begins with a letter: `{shown(word)}` is none"
