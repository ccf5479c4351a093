"""The definitions of a proof file, told by its layout: signatures, clauses and right sides, also of `where` blocks."""

import re
from typing import NamedTuple

OPEN, CLOSED = "([{", ")]}"
SIGNATURE = re.compile(r"(?:pub )?([^\s(\[{]\S*) :(?: |$)")
MODULE = re.compile(r"(?:pub )?module\b")
NO_MODULE_END = re.compile(r"[)\]}]")  # of what such a line itself opens
NO_CLAUSE = re.compile(r"--|#|(?:where|pub|unfoldable|unfolding|abbrev|record|data|use|open|module)\b")


class Signature(NamedTuple):
    """A name and its type, which begins on a line and is indented so far."""

    name: str
    line: int
    indent: int
    type: str


class Clause(NamedTuple):
    """A clause: the line that it begins on, where its `=` is, and the line behind its right side."""

    name: str
    line: int
    indent: int
    equals: tuple[int, int]
    end: int


class Definition(NamedTuple):
    """A definition at the left edge, or at that of a `module`: its signature's line, its first clause's, and the line behind all of it."""

    name: str
    line: int
    clauses: int
    end: int
    indent: int = 0


def indent_of(line):
    return len(line) - len(line.lstrip(" "))


def depth_of(text, depth=0):
    """How many brackets are open behind a text, if so many are open before it."""
    for letter in text:
        depth += (letter in OPEN) - (letter in CLOSED)
    return depth


def cut_at(text, separator):
    """A text in parts, cut at each separator outside of brackets. A separator of one letter may stand within a word."""
    parts, depth, now = [], 0, ""
    pieces = re.split(f"({re.escape(separator)})" if len(separator) == 1 else f"( {re.escape(separator)} )", text)
    for piece in pieces:
        if piece.strip() == separator and depth == 0:
            parts.append(now.strip())
            now = ""
        else:
            now += piece
            depth = depth_of(piece, depth)
    return parts + [now.strip()]


def words_of(text):
    """The words of an application, each bracket whole."""
    words, depth, now = [], 0, []
    for word in text.split():
        now.append(word)
        depth = depth_of(word, depth)
        if depth == 0:
            words.append(" ".join(now))
            now = []
    return words + ([" ".join(now)] if now else [])


def is_whole(text):
    """Whether a text is one pair of parentheses and what stands in it."""
    if not (text.startswith("(") and text.endswith(")")):
        return False
    return all(depth_of(text[:at]) for at in range(1, len(text)))


def without_brackets(text):
    """A text without the parentheses round all of it, unless they hold a tuple."""
    while is_whole(text) and len(cut_at(text[1:-1], ",")) == 1:
        text = text[1:-1].strip()
    return text


def goes_on(lines, at, indent, depth=0):
    """Whether a line belongs to what began further left, or to a bracket that is open."""
    line = lines[at] if at < len(lines) else ""
    deep = indent_of(line)
    return bool(line.strip()) and line.strip() != "where" and (deep > indent or (depth > 0 and deep == indent))


def signatures_of(lines):
    """All signatures of a file, in their order."""
    found, at = [], 0
    while at < len(lines):
        line, indent = lines[at].strip(), indent_of(lines[at])
        names = SIGNATURE.match(line)
        if not names or line.startswith("--"):
            at += 1
            continue
        end, text = at + 1, [line[names.end(1) + 2 :].strip()]
        while goes_on(lines, end, indent):
            text.append(lines[end].strip())
            end += 1
        found.append(Signature(names[1], at, indent, " ".join(text).strip()))
        at = end
    return found


def equals_of(lines, at):
    """Where the `=` of a clause is that begins on a line, or None."""
    depth, indent = 0, indent_of(lines[at])
    for line in range(at, min(at + 8, len(lines))):
        if line > at and not goes_on(lines, line, indent):
            return None
        text = lines[line]
        for column, letter in enumerate(text):
            depth += (letter in OPEN) - (letter in CLOSED)
            if letter == "=" and depth == 0 and text[column - 1 : column + 2].strip() == "=" and column > indent:
                return line, column
    return None


def clauses_of(lines):
    """All clauses of a file, in their order."""
    found, at = [], 0
    while at < len(lines):
        line, indent = lines[at].strip(), indent_of(lines[at])
        equals = None
        if line and not NO_CLAUSE.match(line) and not SIGNATURE.match(line):
            equals = equals_of(lines, at)
        if not equals:
            at += 1
            continue
        end = equals[0] + 1
        depth = depth_of(lines[equals[0]][equals[1] + 1 :])
        while goes_on(lines, end, indent, depth) and not lines[end].strip().startswith("--"):
            depth = depth_of(lines[end], depth)
            end += 1
        found.append(Clause(line.split(" ")[0], at, indent, equals, end))
        at = end
    return found


def block_end(lines, at, indent, name):
    """The line behind the clauses of a name, and their `where` blocks, that begin on a line."""
    end = at
    while end < len(lines):
        filled = end
        while filled < len(lines) and not lines[filled].strip():
            filled += 1
        line = lines[filled] if filled < len(lines) else ""
        is_own = indent_of(line) == indent and (line.strip()[:1] in tuple(CLOSED) or line.strip().split(" ")[0] == name)
        if not line.strip() or not (indent_of(line) > indent or is_own and filled == end) or SIGNATURE.match(line.strip()) and is_own:
            return end
        end = filled + 1
    return end


def edges_of(lines):
    """How far the definitions of each line's `module` are indented, which is 0 where a line stands in none."""
    edges, now = [], 0
    for line in lines:
        if line.strip() and indent_of(line) == 0:
            now = 2 if MODULE.match(line) else now if now and NO_MODULE_END.match(line) else 0
        edges.append(now)
    return edges


def definitions_of(lines):
    """The definitions at the left edge, or at that of a `module`, that have a signature and clauses."""
    found, edges = [], edges_of(lines)
    for it in signatures_of(lines):
        if it.indent != edges[it.line] or (found and it.line < found[-1].end):
            continue
        if lines[it.line].strip().startswith(("abbrev", "unfoldable")):
            continue
        clauses, edge = it.line + 1, " " * it.indent
        while goes_on(lines, clauses, it.indent) or (clauses < len(lines) and lines[clauses].startswith(edge + "unfolding ")):
            clauses += 1
        if clauses < len(lines) and indent_of(lines[clauses]) == it.indent and lines[clauses].split()[0:1] == [it.name]:
            found.append(Definition(it.name, it.line, clauses, block_end(lines, clauses, it.indent, it.name), it.indent))
    return found
