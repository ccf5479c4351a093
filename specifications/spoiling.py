"""A specification spoilt: each line that decides something, in one way after the other."""

import re
from typing import NamedTuple

DECIDES = re.compile("( *)(allow|answer|shows|set|append|prepend|drop|clear)( .*)?")
CLOSED = {"(": ")", "[": "]", "{": "}"}


class Spoilt(NamedTuple):
    """A specification's text with one line spoilt: the line's number, what stands there, and the whole."""

    line: int
    spoilt: str
    text: str


def spoilt(text):
    """Each way to spoil a specification."""
    lines = text.split("\n")
    for place, line in enumerate(lines):
        found = DECIDES.fullmatch(line)
        for other in ways_of(found[1], found[2], (found[3] or "").strip()) if found else ():
            yield Spoilt(place + 1, other, "\n".join([*lines[:place], other, *lines[place + 1 :]]))


def ways_of(indent, word, rest):
    """What may stand in the place of a line: a change becomes a remark."""
    if word == "allow":
        return [f"{indent}allow {other}" for other in ["0", *conditions_left_out(rest)]]
    if word == "answer":
        return [f"{indent}answer {other}" for other in others_than(rest)]
    if word == "shows":
        key, amount = parts_of(rest)
        return [f"{indent}shows {key} {other}" for other in others_than(amount)]
    return [f"#{indent}{word} {rest}"]


def conditions_left_out(text):
    """A condition with one of those that it joins by `and` left out."""
    joined = parts_of(text[1:-1]) if text.startswith("(") else []
    if len(joined) != 3 or joined[1] != "and":
        return ["1"]
    a, b = joined[0], joined[2]
    return [f"({other} and {b})" for other in conditions_left_out(a)] + [f"({a} and {other})" for other in conditions_left_out(b)]


def others_than(text):
    """Another value: for a choice each of its two, otherwise `none`, and 0 for what stands with it."""
    parts = parts_of(text[1:-1]) if text.startswith("(if ") else []
    others = [parts[3], parts[5]] if parts else ["none"]
    return [other for other in others if other != text]


def parts_of(text):
    """The words and bracketed parts of a text, which stand with single spaces between them."""
    parts, open_brackets = [""], []
    for letter in text:
        if letter in CLOSED:
            open_brackets.append(CLOSED[letter])
        elif open_brackets and letter == open_brackets[-1]:
            open_brackets.pop()
        if letter == " " and not open_brackets:
            parts.append("")
        else:
            parts[-1] += letter
    return parts
