"""A log with its answer as one page for a browser: the data of it in columns, and the page around them."""

import base64
import contextlib
import hashlib
import io
import json
import re
from array import array
from html import escape
from pathlib import Path

from changes import TRACKS, Changes
from columns import Bytes, Column, Numbers, Rising, great_numbers, texts_of
from command import harmless, unread
from explanation import explain, explain_violation
from logtext import OBSERVERS, START, words_in
from names import DAMAGE, told
from naming import named_by
from summary import summary_of
from tables import table_of
from violations import Violation

PARTS = Path(__file__).resolve().parent / "page_parts"
SCRIPTS = ("columns.js", "model.js", "lanes.js", "panels.js", "page.js")
POLICY = "default-src 'none'; script-src {}; style-src {}; base-uri 'none'; form-action 'none'"
PIECE = 1 << 20

# What a line is, as the page has it.
LETTERS = {"call": "c", "return": "r", "write": "w", "commit": "m", "open": "o", "close": "x", "close commit": "X"}
START_LINE, NOTE, SPECIFICATION, OTHER = "s", "#", "p", "?"
NO_LANE = 0xFFFF
MOST_LANES = 256  # callers of a log without a sound header may be any numbers


class Lines:
    """What the lines of a log are: their bytes, their kinds and lanes, the calls with their commits and returns, and which keys
    they name. Lanes are numbered in the order in which their callers come."""

    def __init__(self, log, great):
        self.log, self.count, self.lanes, self.open = log, 0, {}, {}
        self.text, self.kinds, self.lane = Bytes(), Column("B"), Column("H")
        self.calls, self.commits, self.returns, self.looks = array("I"), array("I"), array("I"), bytearray()
        self.named_lines, self.named_keys = Rising(), Numbers(great)
        self._copy()
        self._read()

    def _copy(self):
        """Packs the log as it is."""
        self.log.file.seek(0)
        try:
            while piece := self.log.file.read(PIECE):
                self.text.add(piece)
        except OSError as error:
            raise unread(self.log.name, error) from None

    def _read(self):
        may_start = True
        for line, text, length, _ in self.log.lines():
            self.count = line
            entry = self.log.entry(line, text)
            is_start = may_start and not entry and line > self.log.front and START.fullmatch(text) is not None
            may_start = may_start and (line <= self.log.front or is_start or self.log.is_note(line, text, length))
            self.kinds.add(ord(LETTERS[entry.kind] if entry else self._kind(line, text, length, is_start)))
            self.lane.add(self._lane_of(entry.caller) if entry else NO_LANE)
            if entry:
                self._take(entry)

    def _kind(self, line, text, length, is_start):
        """What a line is that is no entry."""
        if is_start:
            return START_LINE
        if 1 < line <= self.log.front and self.log.version == "3":
            return SPECIFICATION
        return NOTE if self.log.is_note(line, text, length) else OTHER

    def _lane_of(self, caller):
        if caller not in self.lanes:
            if len(self.lanes) == MOST_LANES or (self.log.subject and caller >= self.log.callers):
                return NO_LANE
            self.lanes[caller] = len(self.lanes)
        return self.lanes[caller]

    def _take(self, entry):
        """Puts an entry to its call."""
        kind = entry.kind
        for key in named_by(self.log, entry):
            self.named_lines.add(entry.line)
            self.named_keys.add(key)
        if kind == "call":
            self.open[entry.caller] = len(self.calls), entry.method
            self.calls.append(entry.line)
            self.commits.append(0)
            self.returns.append(0)
            self.looks.append(self._looks(entry.method, False))
        elif kind in ("commit", "close commit", "return") and entry.caller in self.open:
            self._end(entry, *self.open[entry.caller])

    def _end(self, entry, call, method):
        """Puts a commit or a return to its call."""
        if entry.kind == "return":
            self.returns[call] = entry.line - self.calls[call]
            self.looks[call] = not self.commits[call] and self._looks(method, True)
            del self.open[entry.caller]
        elif not self.commits[call]:
            self.commits[call] = entry.line - self.calls[call]
            self.looks[call] = False

    def _looks(self, method, has_returned):
        """Whether a call of a method that hasn't committed only looks. In version 3 it may do so, or be about to commit."""
        said = self.log.specification and self.log.specification.by_name.get(method)
        if said:
            return said.answer is not None and (has_returned or not said.cases)
        return method in OBSERVERS

    def columns(self):
        """The columns by their names."""
        lines = {"text": self.text, "kinds": self.kinds, "lanes": self.lane}
        named = {"named.line": self.named_lines, "named.at": self.named_keys}
        calls = {"calls": packed(Rising(), self.calls), "looks": packed(Column("B"), self.looks)}
        ends = {"commits": packed(Column("I"), self.commits), "returns": packed(Column("I"), self.returns)}
        return {**lines, **named, **calls, **ends}


def packed(column, numbers):
    """A column with all of these numbers."""
    for number in numbers:
        column.add(number)
    return column


class Texts:
    """The texts of amounts of a built-in structure. The page has their places; each amount has one of its own."""

    def __init__(self, log):
        self.log, self.places, self.texts = log, {}, []
        self.damage = damage_from(log)
        self.zeros = [self.place(0, 0), self.place(self.damage or 0, 0)]

    def place(self, key, amount):
        """The place of an amount at a key."""
        about = (self.damage is not None and key >= self.damage, amount)
        if about not in self.places:
            self.places[about] = len(self.texts)
            self.texts.append(told(self.log.subject, self.log.size, key, amount))
        return self.places[about]


def damage_from(log):
    """The least key that stands for damage, or None."""
    return {"tree": DAMAGE, "cache": log.size, "buffers": log.size}.get(log.subject)


class States:
    """The changes of a log as columns, by track."""

    def __init__(self, log, great):
        self.texts = Texts(log) if log.subject and not log.specification else None
        self.columns = {}
        for track in TRACKS:
            self.columns.update({f"{track}.line": Rising(), f"{track}.at": Numbers(great), f"{track}.value": Numbers(great)})
        self.sources = Column("i")
        changes = Changes(log)
        for change in changes:
            self._take(*change)
        self.until = changes.until

    def _take(self, track, line, at, value, source):
        if self.texts and track in ("shown", "has"):
            value = self.texts.place(at, value)
        self.columns[f"{track}.line"].add(line)
        self.columns[f"{track}.at"].add(at)
        self.columns[f"{track}.value"].add(value)
        if track == "words":
            self.sources.add(source - line)


def findings_of(log, violation):
    """What tools/explain says of the answer, in its sections, each a list of lines."""
    if not log.answer or log.answer.startswith("accepted"):
        return []
    said = io.StringIO()
    with contextlib.redirect_stdout(said):
        if violation:
            explain_violation(violation)
        else:
            explain(log)
    return [section.split("\n") for section in said.getvalue().strip("\n").split("\n\n")[1:]]


class Page:
    """The page of a log. All of it is made before any of it is written."""

    def __init__(self, log, name):
        violation = Violation(log) if (log.answer or "").startswith("violation") else None
        findings, great = findings_of(log, violation), great_numbers()
        summary = summary_of(log, violation)
        lines, states = Lines(log, great), States(log, great)
        self.name, self.answer = harmless(name), log.answer
        data = {
            "name": self.name,
            "answer": log.answer,
            "fault": log.marked_line,
            "summary": {**summary._asdict(), "key": None if summary.key is None else str(summary.key)},
            "findings": findings,
            "count": lines.count,
            "until": min(states.until, lines.count),
            "callers": list(lines.lanes),
            "great": texts_of(great),
            **shape_of(log),
            **texts_in(states.texts),
        }
        self.columns = {**lines.columns(), **states.columns, "words.source": states.sources}
        self.data = Bytes()
        self.data.add(json.dumps(data, separators=(",", ":")).encode())

    def write(self, file):
        """Writes it. Its policy lets it run its own script and nothing else, and ask for nothing."""
        style, script = part("page.css"), "".join(part(name) for name in SCRIPTS)
        parts = {
            "policy": POLICY.format(hashed(script), hashed(style)),
            "title": escape(f"{self.name}: {self.answer or 'no answer'}"),
            "style": style,
            "script": script,
        }
        before, after = part("page.html").split("{{data}}")
        before, after = (re.sub(r"\{\{(\w+)\}\}", lambda name: parts[name[1]], text) for text in (before, after))
        file.write(before.encode("utf-8", "replace"))
        for name, column in {"data": self.data, **self.columns}.items():
            file.write(f"{name}:".encode() + column.text() + b"\n")
        file.write(after.encode("utf-8", "replace"))


def shape_of(log):
    """What the page has to know of the structure, or of the specification."""
    said = log.specification
    return {
        "version": log.version,
        "subject": log.subject,
        "size": log.size,
        "front": log.front if said else 1,
        "table": table_of(log) if log.subject else None,
        "wordCount": words_in(log.subject, log.size) if log.subject else 0,
        "damage": damage_from(log),
        "compares": bool(log.subject and (not said or (said.part and log.size))),
        "registers": list(said.registers) if said else [],
        "lists": list(said.lists) if said else [],
    }


def texts_in(texts):
    """The texts of amounts, if amounts have any."""
    return {"told": texts.texts, "zeros": texts.zeros} if texts else {"told": None, "zeros": [0, 0]}


def part(name):
    """A part that all pages have."""
    return (PARTS / name).read_text(encoding="utf-8")


def hashed(text):
    """A script or a style, as a policy names it."""
    return f"'sha256-{base64.b64encode(hashlib.sha256(text.encode()).digest()).decode()}'"
