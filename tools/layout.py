"""The layout of proof files: that of the kit's `rattle fmt`, and lines of at most 100 columns, which it doesn't see to."""

import re
import subprocess
import tempfile
from pathlib import Path
from typing import NamedTuple

from command import Ended
from proofs import clauses_of, definitions_of, indent_of

WIDTH = 100
ROUNDS = 30  # each round shortens each long line, and none is so long
USE = re.compile(r"((?:unfoldable )?(?:pub )?use (?:unfoldable )?\S+\.\{)([^}]*)\}$")
COMMENT = re.compile(r"(\s*-- )(\S.*)$")
BINDS = re.compile(r"[^()\[\]{}→≡×∙=]*:")

# What a place costs for each bracket that is open there, for each column that is left free, and for the word behind it.
DEEPER, FREE = 18, 0.3
BEFORE = {"→": 0, "∙": 0, "×": 1, "⊎": 1, "++": 2, "≡": 3, "≢": 3, "≤": 3, "&&": 3, "||": 3, "∷": 4, "+": 4, "-": 5, "*": 5}
VALUE, BRACKET, ARGUMENT, LAMBDA, LISTED = 6, 8, 14, 25, 30
SELDOM, NEVER = 40, 60
STAYS = {"in", "=", "as", ":", "{", "↦", "|", "[", "_"}  # they stay behind what they belong to
OPENS = {"let", "λ", "where", "elim", "as", "record", "by", ":", "use", "|"}  # what they open stays behind them


class Place(NamedTuple):
    """A space at which a line may be broken: its column, how many brackets are open, and what it costs."""

    column: int
    open: int
    cost: int


def cost_of(before, behind):
    """What it costs to break between two words."""
    if behind in BEFORE:
        return BEFORE[behind]
    if before.endswith(","):
        return LISTED
    if before in ("=", "in"):
        return VALUE
    if behind in STAYS or before in OPENS:
        return NEVER
    if before in BEFORE or before == ".":
        return SELDOM
    if behind.startswith(("(", "[")):
        return BRACKET
    return LAMBDA if behind.startswith("λ") else ARGUMENT


def places_in(line):
    """The places of a line of code, up to a comment at its end."""
    start = len(line) - len(line.lstrip())
    open_brackets = []
    for at in range(start, len(line)):
        letter = line[at]
        if letter in "([{":
            open_brackets.append(letter)
        elif letter in ")]}" and open_brackets:
            open_brackets.pop()
        elif letter == " ":
            if line.startswith(" --", at):
                return
            rest = line[at + 1 :]
            cost = cost_of(line[start:at].rsplit(" ", 1)[-1], rest.split(" ", 1)[0])
            # The names that a bracket or a λ binds stay together.
            if open_brackets and open_brackets[-1] in "({" and BINDS.match(rest):
                cost += SELDOM
            if re.search(r"λ[^.→]*$", line[start:at]):
                cost += SELDOM
            yield Place(at, len(open_brackets), cost)


def broken_code(line):
    """The line in two, or None where it can't be broken."""
    start = len(line) - len(line.lstrip())
    fitting = [place for place in places_in(line) if start + 12 <= place.column <= WIDTH]
    if not fitting:
        return None
    best = min(fitting, key=lambda it: it.open * DEEPER + it.cost + (WIDTH - it.column) * FREE)
    return [line[: best.column], " " * (start + 4) + line[best.column + 1 :]]


def filled(head, words, join, tail=""):
    """The words in as few lines as they need, each of which begins with the head and ends with the tail."""
    lines, now = [], []
    for word in words:
        if now and len(head + join.join(now + [word]) + tail) > WIDTH:
            lines.append(head + join.join(now) + tail)
            now = []
        now.append(word)
    return lines + [head + join.join(now) + tail]


def broken(line):
    """The line in two or more, or None where it can't be broken."""
    imports = USE.match(line)
    if imports:
        lines = filled(imports[1], [name.strip() for name in imports[2].split(",")], ", ", "}")
    else:
        return broken_code(line)
    return lines if len(lines) > 1 else None


def filled_comments(text):
    """The text with each comment that has a long line filled up from that line to its paragraph's end."""
    lines, left = [], text.split("\n")
    while left:
        line = left.pop(0)
        comment = COMMENT.match(line)
        if not comment or len(line) <= WIDTH:
            lines.append(line)
            continue
        words = comment[2].split(" ")
        while left and (more := COMMENT.match(left[0])) and more[1] == comment[1]:
            words += more[2].split(" ")
            left.pop(0)
        lines += filled(comment[1], words, " ")
    return "\n".join(lines)


def broken_once(text):
    """The text with each long line broken once, and the lines that can't be."""
    lines, stay = [], []
    for line in filled_comments(text).split("\n"):
        parts = [line]
        if len(line) > WIDTH:
            parts = None if COMMENT.match(line) else broken(line)
        if parts is None:
            stay.append(line)
        lines += parts or [line]
    return "\n".join(lines), stay


def pulled_up(text):
    """The text with each value that stands alone behind a `=` on that line, if there is room."""
    lines = []
    for line in text.split("\n"):
        alone = lines and lines[-1].endswith(" =") and line.endswith(";") and not line.lstrip().startswith(("--", "record"))
        if alone and len(lines[-1]) + 1 + len(line.lstrip()) <= WIDTH:
            lines[-1] += " " + line.lstrip()
        else:
            lines.append(line)
    return "\n".join(lines)


def laid_out(text):
    """The text in the layout of `rattle fmt`."""
    with tempfile.TemporaryDirectory() as folder:
        file = Path(folder) / "proof.antt"
        file.write_text(text, encoding="utf-8")
        try:
            ran = subprocess.run(["rattle", "fmt", file], capture_output=True, text=True, check=False)
        except OSError as error:
            raise Ended(f"rattle can't be run: {error.strerror}") from error
    if ran.returncode:
        raise ValueError(f"rattle fmt refuses it: {ran.stderr.strip().splitlines()[-1] if ran.stderr.strip() else 'without a word'}")
    return ran.stdout


def meaning(text):
    """What has to stay: the imported names in any order, and all else without spaces, comments and what a layout adds."""
    names, others = [], []
    for line in text.split("\n"):
        imports = USE.match(line)
        if imports:
            names += [(imports[1], " ".join(name.split())) for name in imports[2].split(",")]
        else:
            others.append(re.sub(r"--.*", "", line))
    code = re.sub(r"\s+", "", "".join(others))
    return sorted(names), re.sub(r"[,;](?=[)\]}])", "", code).replace("[|", "[")


def wrapped(text):
    """The text with no line that is too long, as far as they can be broken, and the lines that can't be."""
    new, stay = text, []
    for _ in range(ROUNDS):
        again, stay = broken_once(new)
        if again == new:
            break
        new = pulled_up(laid_out(again))
    if meaning(new) != meaning(text):
        raise ValueError("its words would change")
    return new, stay


def joined(text, names, whole=False):
    """The text with each clause of these definitions in one line, up to `let`, unless a comment or a `where` stands in it. A right side
    that began on a line of its own still does, unless the whole is wanted."""
    lines = text.split("\n")
    wanted = [it for it in definitions_of(lines) if it.name in names]
    for clause in reversed(clauses_of(lines)):
        part = lines[clause.line : clause.end]
        inside = any(it.clauses <= clause.line < it.end for it in wanted)
        if not inside or any("--" in line or line.strip() == "where" for line in part):
            continue
        # the brackets of cases stand by themselves
        opening, closing = ("(", ")") if any("↦" in line for line in part) else (("(", "["), (")", "]"))
        new = [part[0].rstrip()]
        for line in map(str.strip, part[1:]):
            if line.startswith("let ") or new[-1].endswith(" in") or (len(new) == 1 and new[0].endswith(" =") and not whole):
                new.append(" " * (indent_of(part[0]) + 4) + line)
            else:
                new[-1] += ("" if new[-1].endswith(opening) or line.startswith(closing) else " ") + line
        lines[clause.line : clause.end] = new
    return "\n".join(lines)
