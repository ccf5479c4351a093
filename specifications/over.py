"""Logs of versions 1 and 2 written over to version 3: a specification of the built-in structure takes the place of the header."""

import re
from pathlib import Path

from command import Ended

BUILT_IN = Path(__file__).resolve().parent / "built_in"
HEADER = re.compile("vyrd ([12]) (multiset|cache|tree) ([1-9][0-9]{0,3}) ([1-9][0-9]?)")
START = re.compile("start (0|[1-9][0-9]{0,9}) ([1-9][0-9]{0,19})")
MARK = re.compile("([0-9]+) (open|close commit|close|commit|return)( .*)?")
CHUNK = re.compile("[0-9]+ call (?:write|flush|evict|read) ([0-9]+)(?: .*)?")
WORDS = {"multiset": (8, 0), "cache": (5, 0), "tree": (12, 2)}
NO_REPLY = str(2**64 - 1)


class NotCarried(Ended):
    """What ends a script: a log, or a part of one, that has no log of version 3 with the same verdict."""


def specification(subject, size, callers):
    """The specification of a built-in structure of this size, with the line `log`."""
    each, beside = WORDS[subject]
    text = (BUILT_IN / f"{subject}.spec").read_text(encoding="ascii")
    text = re.sub("vyrd 3 own .*", f"vyrd 3 own {each * size + beside} {callers}", text, count=1)
    return re.sub("let size .*", f"let size {size}", text)


def written_over(text):
    """The log of version 3, and by how many lines its lines stand further down."""
    lines = text.split("\n")
    header = HEADER.fullmatch(lines[0]) if len(lines) > 1 else None
    if not header or int(header[3]) > 1024 or int(header[4]) > 64:
        raise NotCarried("line 1 is no header of a multiset, a cache or a tree")
    version, subject, size = header[1], header[2], int(header[3])
    reasons = [*in_the_way(version, subject, size, lines), *starts_in_the_way(version, subject, size, lines)]
    if reasons:
        line, why = min(reasons)
        raise NotCarried(f"line {line}: {why}")
    above = specification(subject, size, int(header[4]))
    return above + text.partition("\n")[2], above.count("\n") - 1


def in_the_way(version, subject, size, lines):
    """The first entry that another rule holds of in version 3, with the number of its line and why."""
    in_block = set()
    for line, text in enumerate(lines[1:], 2):
        mark = MARK.fullmatch(text)
        caller, word, rest = mark.groups() if mark else (None, None, None)
        chunk = CHUNK.fullmatch(text) if subject == "cache" else None
        if text.startswith("#"):
            yield line, "it would be a note in version 3"
        elif chunk and int(chunk[1]) >= size:
            yield line, "version 3 has no ranges of arguments"
        elif word == "return" and rest == f" {NO_REPLY}":
            yield line, "no reply of version 3 is so great"
        elif word == "commit" and version == "1" and caller in in_block:
            yield line, "version 3 lets a commit stand inside a block"
        if word == "open":
            in_block.add(caller)
        elif word in ("close", "close commit"):
            in_block.discard(caller)


def starts_in_the_way(version, subject, size, lines):
    """A starting line that means another thing in version 3, with its number and why."""
    words = {}
    for line, text in enumerate(lines[1:-1], 2):
        start = START.fullmatch(text)
        if not start:
            break
        words[int(start[1])] = int(start[2])
        if version == "1":
            yield line, "version 1 has no starting lines"
        elif subject == "tree":
            yield line, "what a tree holds at the start is said by its links"
    if words and not SOUND[subject](size, words):
        yield 2, "more is asked of words at the start than in version 3"


def is_sound_multiset(size, words):
    """Whether each valid slot has a value of its bucket."""
    return all(words.get(word + 1, 0) % size == word // 8 for word, value in words.items() if word % 2 == 0 and value == 2)


def is_sound_cache(size, words):
    """Whether each chunk has one of the three states and halves of 32 bits, and two equal pairs if it is clean."""
    for chunk in {word // 5 for word in words}:
        state, *halves = (words.get(5 * chunk + place, 0) for place in range(5))
        if state > 2 or max(halves) >= 2**32 or (state == 1 and halves[:2] != halves[2:]):
            return False
    return True


SOUND = {"multiset": is_sound_multiset, "cache": is_sound_cache, "tree": lambda size, words: False}
