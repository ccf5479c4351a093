"""The arguments in a proof's terms, told by their layout: those in whose place `_` may stand, since the kit may find them by itself."""

import re
from typing import NamedTuple

TOKEN = re.compile(r'--[^\n]*|"[^"\n]*"|[()\[\]{},;]|[^\s()\[\]{},;]+')
KEYWORDS = set("let in as record elim where if then else with by steps using".split())
# What these stand before is a list, and not arguments.
TACTICS = set("cc grind search omega simp rw auto arith rules".split())
# What these are given is never found by itself.
NEEDY = {"ap", "sym", "subst", "absurd", "cond"}


class Argument(NamedTuple):
    """An argument, from a place up to another one, and those that stand in it."""

    start: int
    end: int
    inner: tuple = ()


class Atom(NamedTuple):
    """A name, or a bracket with the arguments in it."""

    start: int
    end: int
    is_bracket: bool
    inner: tuple = ()


class Reader:
    """Reads a term from one place of a text up to another one. Arguments of the names that are given stay as they are."""

    def __init__(self, text, low, high, own):
        self.text, self.own, self.at = text, own, 0
        self.tokens = [it for it in TOKEN.finditer(text, low, high) if not it[0].startswith("--")]

    def pass_binders(self):
        """Passes over what a λ binds, up to its dot."""
        depth = 0
        while self.at < len(self.tokens):
            word = self.tokens[self.at][0]
            self.at += 1
            depth += (word in ("(", "[", "{")) - (word in (")", "]", "}"))
            if depth == 0 and word.endswith("."):
                return

    def arguments(self):
        """The outermost arguments up to the bracket that closes what is read."""
        found, atoms = [], []
        in_type = is_motive = False
        while self.at < len(self.tokens):
            token = self.tokens[self.at]
            word = token[0]
            self.at += 1
            if word in ("(", "[", "{"):
                inner = self.arguments()
                end = self.tokens[self.at - 1].end()
                atoms.append(Atom(token.start(), end, True, () if in_type or is_motive else tuple(inner)))
                is_motive = False
            elif word in (")", "]", "}"):
                break
            elif word.startswith("λ"):
                found += self.of_application(atoms, in_type)
                atoms = []
                self.pass_binders()
            elif word != "_" and (word in KEYWORDS or not re.search(r"[^\W_]", word)):
                found += self.of_application(atoms, in_type)
                atoms = []
                in_type = word == ":" or in_type and word not in ("=", "in")
                is_motive = word == "as"
            else:
                atoms.append(Atom(token.start(), token.end(), False))
        return found + self.of_application(atoms, in_type)

    def of_application(self, atoms, in_type):
        """The arguments of an application, or those that stand in its parts if its head's own have to stay."""
        if not atoms or in_type:
            return []
        head, *others = atoms
        name = self.text[head.start : head.end]
        if name in TACTICS:
            return []
        stays = head.is_bracket or name in NEEDY or name.split(".")[0] in self.own or not re.search(r"[^\W\d]", name)
        found = list(head.inner)
        for it in others:
            word = self.text[it.start : it.end]
            if stays or len(word) == 1 or word.startswith(("{", "[")):
                found += it.inner
            else:
                found.append(Argument(it.start, it.end, it.inner))
        return found


def arguments_in(text, low, high, own=()):
    """The outermost arguments of the terms between two places, each with those in it."""
    reader, found = Reader(text, low, high, own), []
    while reader.at < len(reader.tokens):
        found += reader.arguments()
    return sorted(found)
