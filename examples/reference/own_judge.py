"""A judge of logs of version 3 for the tests, over a whole text: the rules of docs/LOG-FORMAT.md, written down as they stand there.

It reads and interprets specifications by the modules that the scripts use, and is slow: it is compared with the program.
"""

import re

from expressions import NONE, Refused
from specification import LONGEST, Specification, is_note, rule_of_unended, sizes_in
from steps import State, View, answer_of, step_of, why_no_start

BITS_32, BITS_63, BITS_64 = 1 << 32, 1 << 63, 1 << 64
NUMBER = "(0|[1-9][0-9]*)"
START = re.compile(f"start {NUMBER} {NUMBER}")
ENTRY = re.compile(
    f"{NUMBER} (?:write {NUMBER} {NUMBER}|return {NUMBER}|call ([a-z0-9_]+)((?: (?:0|[1-9][0-9]*))*)"
    "|(commit|open|close(?: commit)?))"
)


class Malformed(Exception):
    """The first line of a text that breaks a rule of text."""


class Entry:
    def __init__(self, line, caller, kind, *numbers):
        self.line, self.caller, self.kind, self.numbers = line, caller, kind, numbers


class Text:
    """What a text says up to its first fault: the specification, starting words, entries, the line of `end`, and the fault."""

    def __init__(self, text):
        *self.lines, self.rest = text.split("\n")
        self.words = self.callers = self.said = None
        self.starts, self.entries, self.end_line, self.fault = [], [], None, None
        try:
            self._read()
        except Malformed as fault:
            self.fault = fault.args

    def _read(self):
        if not self.lines:
            self._unended(1, "bad header" if len(self.rest) > LONGEST else None)
        sizes = sizes_in(self.lines[0])
        if not sizes:
            raise Malformed(1, "bad header")
        (self.words, self.callers), place = sizes, self._read_specification()
        may_start = True
        for line, text in enumerate(self.lines[place:], place + 1):
            if is_note(text, len(text)):
                continue
            start = START.fullmatch(text)
            if may_start and start and int(start[1]) < BITS_32 and int(start[2]) < BITS_64:
                self._start(line, int(start[1]), int(start[2]))
                continue
            may_start = False
            if text == "end":
                self.end_line = line
                if self.lines[line:] or self.rest:
                    raise Malformed(line + 1, "text after end")
                return
            self.entries.append(self._entry(line, text))
        self._unended(len(self.lines) + 1, "bad entry" if len(self.rest) > LONGEST else None)

    def _read_specification(self):
        """The specification, and the place behind its last line."""
        said = Specification()
        for place, text in enumerate(self.lines[1:], 1):
            try:
                said.take(place + 1, text, len(text))
            except Refused as refused:
                raise Malformed(place + 1, refused.rule) from None
            if said.is_whole:
                self.said = said
                return place + 1
        return self._unended(len(self.lines) + 1, rule_of_unended(said, len(self.rest)))

    def _unended(self, line, rule):
        raise Malformed(line, rule or ("no line feed" if self.rest else "no end"))

    def _start(self, line, word, value):
        if word >= self.words or not 0 < value < BITS_63:
            raise Malformed(line, "start out of range")
        if self.starts and word <= self.starts[-1][1]:
            raise Malformed(line, "start word not rising")
        self.starts.append((line, word, value))

    def _entry(self, line, text):
        found = ENTRY.fullmatch(text)
        if not found or int(found[1]) >= BITS_32:
            raise Malformed(line, "bad entry")
        caller, word, value, reply, method, arguments, mark = found.groups()
        if mark:
            return Entry(line, int(caller), mark)
        if method:
            called, numbers = self.said.by_name.get(method), tuple(map(int, arguments.split()))
            if not called or len(numbers) != len(called.parameters) or any(number >= BITS_32 for number in numbers):
                raise Malformed(line, "bad entry")
            return Entry(line, int(caller), "call", called, numbers)
        if reply:
            if int(reply) >= NONE:
                raise Malformed(line, "bad entry")
            return Entry(line, int(caller), "return", int(reply))
        if int(word) >= BITS_32 or int(value) >= BITS_64:
            raise Malformed(line, "bad entry")
        return Entry(line, int(caller), "write", int(word), int(value))


class Execution:
    def __init__(self, method, arguments, at):
        self.method, self.arguments, self.called = method, arguments, at
        self.commit, self.returned, self.reply = None, None, None


class Block:
    def __init__(self):
        self.writes, self.commit = [], None


class Judge:
    """The entries of a text one after the other, up to the first that breaks a rule of shape."""

    def __init__(self, text):
        self.text, self.open, self.blocks = text, {}, {}
        self.executions, self.commits, self.broken = [], [], None
        self.effects = {}  # by the place of the entry at which they take effect
        for place, entry in enumerate(text.entries):
            rule = self._rule(entry)
            if rule:
                self.broken = (entry.line, rule)
                break
            self._take(place, entry)

    def _rule(self, entry):
        execution, block = self.open.get(entry.caller), self.blocks.get(entry.caller)
        if entry.caller >= self.text.callers:
            return "caller out of range"
        if entry.kind == "call":
            return "call inside a call" if execution else None
        if not execution:
            return "no call open"
        method, kind = execution.method, entry.kind
        rules = []
        if kind == "return":
            rules = [(block, "return inside a block")]
            rules += [(not method.answer and execution.commit is None, "no commit")]
        elif kind == "write":
            word, value = entry.numbers
            rules = [(word >= self.text.words, "word out of range"), (value >= BITS_63, "value out of range")]
            rules += [(self._is_raced(entry.caller, word), "block raced")]
        elif kind == "open":
            rules = [(block, "block inside a block")]
        if kind in ("close", "close commit"):
            rules += [(not block, "no block open")]
        if kind in ("commit", "close commit"):
            rules += [(not method.cases, "observer commits"), (execution.commit is not None, "second commit")]
        return next((rule for is_broken, rule in rules if is_broken), None)

    def _is_raced(self, caller, word):
        others = (block for other, block in self.blocks.items() if other != caller)
        if any(word == written for block in others for written, _ in block.writes):
            return True
        block = self.blocks.get(caller)
        if not block or block.commit is None:
            return False
        late = (place for place in self.effects if place > block.commit and self.text.entries[place].caller != caller)
        return any(word == written for place in late for written, _ in self.effects[place])

    def _take(self, place, entry):
        caller, kind, block = entry.caller, entry.kind, self.blocks.get(entry.caller)
        if kind == "call":
            self.open[caller] = Execution(*entry.numbers, place)
            self.executions.append(self.open[caller])
        elif kind == "open":
            self.blocks[caller] = Block()
        elif kind == "write" and block:
            block.writes.append(entry.numbers)
        elif kind == "write":
            self.effects[place] = [entry.numbers]
        elif kind == "return":
            execution = self.open.pop(caller)
            execution.returned, execution.reply = place, entry.numbers[0]
        if kind in ("commit", "close commit"):
            self.open[caller].commit = place
            self.commits.append(self.open[caller])
            if kind == "commit" and block:
                block.commit = place
        if kind in ("close", "close commit"):
            del self.blocks[caller]
            self.effects[place if block.commit is None else block.commit] = block.writes

    def fault(self):
        """The first violation, as its line and what is said of it, or None."""
        said, entries = self.text.said, self.text.entries
        view = View(said, {word: value for _, word, value in self.text.starts})
        state, states_end, open_now = State(said, view.amounts()), None, {}
        ends = {execution.returned: execution for execution in self.executions if execution.returned is not None}
        calls = {execution.called: execution for execution in self.executions}
        commits = {execution.commit: execution for execution in self.commits}
        for place, entry in enumerate(entries):
            for word, value in self.effects.get(place, ()):
                view[word] = value
            if states_end is not None:
                return None
            if place in calls:
                execution = calls[place]
                open_now[execution] = {answer_of(said, execution.method, state, execution.arguments)}
            if place in commits:
                execution = commits[place]
                if execution.reply is None:
                    states_end = place
                    continue
                found = self._step(execution, state, view)
                if found:
                    return entry.line, found
                for other, answers in open_now.items():
                    answers.add(answer_of(said, other.method, state, other.arguments))
            if place in ends:
                execution = ends[place]
                answers = open_now.pop(execution)
                if execution.commit is None and execution.reply not in answers:
                    return entry.line, f"observer reply {execution.reply} in no state"
        return None

    def _step(self, execution, state, view):
        """Takes a commit, and gives what is wrong there."""
        said = self.text.said
        step = step_of(said, execution.method, state, execution.arguments, execution.reply)
        if not step:
            return f"reply {execution.reply} not allowed"
        for effect in step.effects:
            state.do(effect)
        if not said.part or not self.text.words:
            return None
        shown, seen = state.shown.by_key, view.amounts()
        differing = [key for key in {*shown, *seen} if shown.get(key, 0) != seen.get(key, 0)]
        return f"view differs at key {min(differing)}" if differing else None


def answer_to(data):
    """The line that the definitions give for the bytes of a log of version 3."""
    text = Text(data.decode("latin-1"))
    if text.said and (text.entries or text.end_line):
        words = {word: value for _, word, value in text.starts}
        if why_no_start(text.said, text.words, View(text.said, words).amounts()):
            line = text.starts[0][0] if text.starts else text.entries[0].line if text.entries else text.end_line
            return f"malformed at line {line}: start stands for no state"
        judge = Judge(text)
        if fault := judge.fault():
            return "violation at line {}: {}".format(*fault)
        if judge.broken:
            return "malformed at line {}: {}".format(*judge.broken)
        if text.end_line and judge.open:
            return f"malformed at line {text.end_line}: call not returned"
    if text.fault:
        return "malformed at line {}: {}".format(*text.fault)
    commits = len(judge.commits)
    observers = sum(execution.commit is None for execution in judge.executions)
    return f"accepted: {len(text.entries)} entries, {commits} commits, {observers} observers"
