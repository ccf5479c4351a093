"""What a line of a specification may have meant that isn't spelled as it has to be: the one spelling of what it looks like."""

import copy
import difflib
import re

from expressions import COMPARISONS, DEEPEST, OF_AMOUNTS, OF_LISTS, OPERATIONS, Refused

TOKEN = re.compile(r"\s*([A-Za-z_][A-Za-z0-9_]*|[0-9]+|==|!=|<=|>=|&&|\|\||<>|:=|[^\s])")
ALSO = {"&&": "and", "||": "or", "=": "==", "<>": "!="}  # other spellings of operations
LEVELS = (("or",), ("and",), COMPARISONS, ("+", "-"), ("*", "/", "%"))
CLOSING = {"(": ")", "[": "]", "{": "}"}
KEYWORDS = tuple("let register list holds hidden part shows method answer allow set append prepend drop clear log".split())


class Unclear(Exception):
    """It can't be told what is meant."""


def nearest(word, names):
    """The name that a word may stand for: itself, or one that is nearly the same, or None."""
    if word in names:
        return word
    found = difflib.get_close_matches(word.lower(), list(names), 1)
    return found[0] if found else None


class Loose:
    """The tokens of a text, read in whatever way makes sense of them."""

    def __init__(self, text):
        self.tokens, self.depth = TOKEN.findall(text), 0

    def next(self):
        """The next token, or an empty one."""
        return self.tokens[0] if self.tokens else ""

    def pop(self):
        """Goes on over the next token."""
        if not self.tokens:
            raise Unclear
        return self.tokens.pop(0)

    def skip(self, *tokens):
        """Goes on over the next token if it is one of these."""
        if self.next() in tokens:
            self.tokens.pop(0)
            return True
        return False

    def name(self, names):
        """One of these names."""
        found = nearest(self.pop(), names)
        if not found:
            raise Unclear
        return found

    def expression(self, scope, level=0):
        """The spelling of an expression, of which each operation gets its brackets: `*` binds closest, and `or` least."""
        if level == len(LEVELS):
            return self._one(scope)
        left = self.expression(scope, level + 1)
        while ALSO.get(self.next(), self.next()) in LEVELS[level]:
            operation = self.pop()
            left = f"({left} {ALSO.get(operation, operation)} {self.expression(scope, level + 1)})"
        return left

    def _one(self, scope):
        self.depth += 1
        if self.depth > 2 * DEEPEST:
            raise Unclear
        token = self.pop()
        if token in CLOSING:
            found = self.expression(scope)
            self.skip(CLOSING[token])
            spelled = found if token == "(" else f"{token}{found}{CLOSING[token]}"
        else:
            spelled = self._of_word(scope, token)
        self.depth -= 1
        return spelled

    def _of_word(self, scope, token):
        if token in ("not", "!"):
            return f"(not {self._one(scope)})"
        if token == "if":
            parts = [self.expression(scope)]
            for word in ("then", "else"):
                self.skip(word)
                parts.append(self.expression(scope))
            return f"(if {parts[0]} then {parts[1]} else {parts[2]})"
        if token in OF_AMOUNTS:
            return f"({token} {self._one(scope)})"
        if token in OF_LISTS:
            in_brackets = self.skip("(")
            spelled = f"({token} {self.name(scope.lists)})"
            if in_brackets:
                self.skip(")")
            return spelled
        if token in ("none", "count"):
            return token
        if token.isdigit():
            return str(int(token))
        found = nearest(token, scope.names) if token[0].isalpha() else None
        if not found or token in OPERATIONS:
            raise Unclear
        return found

    def end(self):
        """Nothing may be left but brackets that close."""
        while self.skip(")", "]", "}", ",", ";"):
            pass
        if self.tokens:
            raise Unclear


def number(loose):
    """A number."""
    token = loose.pop()
    if not token.isdigit():
        raise Unclear
    return str(int(token))


def word(loose):
    """A word that is to be a name."""
    token = loose.pop()
    if not token[0].isalpha():
        raise Unclear
    return token.lower()


def of_name_and_number(keyword):
    """`let` and `register` outside methods."""

    def form(loose, _):
        name = word(loose)
        loose.skip("=", ":=")
        return f"{keyword} {name} {number(loose)}"

    return form


def of_let(loose, said):
    if not said.method:
        return of_name_and_number("let")(loose, said)
    name = word(loose)
    loose.skip("=", ":=")
    return f"  let {name} {loose.expression(said.scope())}"


def of_shows(loose, said):
    scope = said.scope_of_part()
    key = loose.expression(scope)
    loose.skip(",", ":", "=")
    return f"  shows {key} {loose.expression(scope)}"


def of_method(loose, _):
    names = [word(loose)]
    while loose.tokens:
        if not loose.skip("(", ",", ")"):
            names.append(word(loose))
    return " ".join(["method", *names])


def of_set(loose, said):
    scope, token = said.scope("reply"), loose.next()
    if token in ("[", "{"):
        loose.pop()
        target = f"{token}{loose.expression(scope)}{CLOSING[token]}"
        loose.skip(CLOSING[token])
    else:
        target = loose.name(said.registers)
    loose.skip("=", ":=", "to")
    return f"    set {target} {loose.expression(scope)}"


def of_put(keyword):
    return lambda loose, said: f"    {keyword} {loose.name(said.lists)} {loose.expression(said.scope('reply'))}"


def of_drop(loose, said):
    return f"    drop {loose.name(('first', 'last'))} {loose.name(said.lists)}"


def of_clear(loose, said):
    return f"    clear {loose.name(said.lists)}" if loose.tokens else "    clear"


FORMS = {
    "let": of_let,
    "register": of_name_and_number("register"),
    "list": lambda loose, _: f"list {word(loose)}",
    "holds": lambda loose, _: f"  holds {number(loose)}",
    "hidden": lambda loose, _: f"hidden {number(loose)} {number(loose)}",
    "part": lambda loose, _: f"part {number(loose)}",
    "shows": of_shows,
    "method": of_method,
    "answer": lambda loose, said: f"  answer {loose.expression(said.scope())}",
    "allow": lambda loose, said: f"  allow {loose.expression(said.scope('reply'))}",
    "set": of_set,
    "append": of_put("append"),
    "prepend": of_put("prepend"),
    "drop": of_drop,
    "clear": of_clear,
    "log": lambda loose, _: "log",
}
WITHIN = ("answer", "allow", "set", "append", "prepend", "drop", "clear")


def keyword_of(loose, said):
    """The word that a line may begin with, which is taken off. A line may set something without saying so."""
    first = loose.next()
    if first in ("[", "{") or (first in said.registers and loose.tokens[1:2] in (["="], [":="])):
        found = "set"
    else:
        found = nearest(loose.pop(), KEYWORDS)
    if not found or (found in WITHIN and not said.method):
        raise Unclear
    return found


def meant(said, line, text):
    """The line that a line may stand for, and that could be read where it stands, or None. `said` stays as it is."""
    loose = Loose(text)
    try:
        keyword = keyword_of(loose, said)
        found = FORMS[keyword](loose, said)
        loose.end()
        copy.deepcopy(said).take(line, found, len(found))
    except (Unclear, Refused):
        return None
    return found if found != text else None
