"""The lines that `vyrd explain` has to write behind a verdict, worked out by the modules of reference/, which share nothing with it."""

import re
from typing import NamedTuple

import steps
from doings import specified
from evaluation import of_list
from expressions import NONE
from fronts import front, starting
from parted import amounts_of, words_at_start
from reasons import parts_at, worth
from walk import Walk
from words import State, allowed, answer, keys_of

VIOLATION = re.compile("violation at line ([0-9]+): (reply|view differs at key|observer reply) ([0-9]+).*")
RACE, NO_STATE = ": block raced", ": start stands for no state"


def lines_behind(log):
    """The lines behind the verdict `log.answer`: none behind that of a log that is accepted, or whose header isn't read."""
    if not (log.subject or log.specification) or log.answer.startswith("accepted") or log.answer.endswith(NO_STATE):
        return []
    violation = VIOLATION.fullmatch(log.answer)
    past = Past(log)
    if not violation:
        return [*(races(past) if log.answer.endswith(RACE) else []), *left_open(past)]
    line, what, number = int(violation[1]), violation[2], int(violation[3])
    execution = past.executions[line]
    called = [f"call at line {execution.line}", f"reply at line {execution.return_line}"]
    if what == "reply":
        return [*called, *(refused_by_own if log.specification else refused)(past, execution)]
    if what == "observer reply":
        return [*called, *answers(past, execution)]
    return [*called, *shown(past, line, number), f"state after line {line}: {told(number, past.state([number], line))}"]


class Past:
    """A walk along the entries that keep the rules of shape."""

    def __init__(self, log):
        self.log, self.walk = log, Walk()
        self.executions, self.commit_lines, self.opened = {}, [], {}  # by line; in their order; by caller
        for entry in front(log):
            self.executions[entry.line] = self.walk.take(entry)
            if entry.commits:
                self.commit_lines.append(entry.line)
            if entry.kind == "open":
                self.opened[entry.caller] = entry.line
        self.walk.end()

    def effects(self, line):
        """The writes that take effect behind a line, each with the entry at which it does, the first to do so first."""
        return [(write, effect.at) for effect in self.walk.effects if effect.at.line > line for write in effect.writes]

    def words(self):
        """The words at the start."""
        return words_at_start(self.log, starting(self.log))

    def state(self, keys, line):
        """The specification's state after the commits up to a line. One that is built in is known at these keys alone."""
        state = OwnState(self.words()) if self.log.specification else State(self.words(), keys)
        for execution in self.walk.commits:
            if execution.commit_line <= line:
                state.take(execution)
        return state


class OwnState(steps.State):
    """The state of the specification in front of a log of version 3."""

    def __init__(self, words):
        super().__init__(words.specification, words.amounts())
        self.specification = words.specification

    def __getitem__(self, key):
        """What it shows of a key."""
        return self.shown[key]

    def call(self, execution):
        """A call in this state, as the functions of reference/ take it."""
        return self.specification, self.specification.by_name[execution.method], self, execution.arguments

    def take(self, execution):
        """The state after this call, by its reply."""
        for effect in steps.step_of(*self.call(execution), execution.reply).effects:
            self.do(effect)


def told(key, amounts):
    return f"key {key} amount {amounts[key]}"


def shown(past, line, key):
    """What the words showed of a key at the commit before a line, what they show on it, by which parts, and what changed it."""
    since = max((commit for commit in past.commit_lines if commit < line), default=0)
    words, changes = past.words(), []
    agreed = words.amount(key)
    for write, at in past.effects(0):
        if at.line > line:
            break
        (word, value), before = write.numbers, words.amount(key)
        was, words[word] = words[word], value
        if at.line <= since:
            agreed = words.amount(key)
        elif words.amount(key) != before:
            change = f"change at line {write.line}: word {word} from {was} to {value}, in effect at line {at.line}"
            changes.append(f"{change}, key {key} amount {before} to {words.amount(key)}")
    where = f"at line {since}" if since else "at the start"
    now = f"words after line {line}: key {key} amount {words.amount(key)}"
    parts = [f"part {part} after line {line}: key {key} amount {amount}" for part, amount in words.parts_with(key)]
    return [f"agreed {where}: key {key} amount {agreed}", now, *parts, *changes]


def refused(past, execution):
    """What the state before a call's commit has of the keys that it looks at, and the replies that it allows."""
    keys, line = list(dict.fromkeys(keys_of(execution))), execution.commit_line
    state = past.state(keys, line - 1)
    replies = allowed(past.log.subject, execution, keys[0], state).split(" or ")
    before = [f"state before line {line}: {told(key, state)}" for key in keys]
    right = [f"allowed reply {reply}" for reply in sorted(replies)]
    return [*before, *right, *last_steps(past, line, [("shown", key) for key in keys])]


def refused_by_own(past, execution):
    """What the state of a specification in front has before a call's commit, and which of the replies tried it allows."""
    line = execution.commit_line
    state = past.state((), line - 1)
    found = list(deciding(state, execution))
    before = {("register", n): f"register {n} value {worth(value)}" for n, value in enumerate(state.registers.values())}
    before |= {("list", n): f"list {n} {ends_of(items)}" for n, items in enumerate(state.lists.values())}
    before |= {("shown", key): f"key {key} amount {state.shown[key]}" for key in keys_read("shown", found)}
    before |= {("hidden", key): f"hidden key {key} amount {state.hidden[key]}" for key in keys_read("hidden", found)}
    tried = dict.fromkeys([0, 1, 2, *(each.value for each in found)])
    right = [reply for reply in tried if reply != NONE and steps.step_of(*state.call(execution), reply)]
    told_before = (f"state before line {line}: {each}" for each in before.values())
    return [*told_before, *(f"allowed reply {reply}" for reply in right), *last_steps(past, line, before)]


def last_steps(past, line, cells):
    """What of a state the steps before a line have set, each with the last step that did."""
    specification, last = specified(past.log, amounts_of(past.words())), {}
    for execution in past.walk.commits:
        if execution.commit_line >= line:
            break
        for doing in specification.step(execution):
            set_by_it = (cell for cell in cells if doing.does_set(cell))
            last.update((cell, f"last step at line {execution.commit_line}: {doing.told}") for cell in set_by_it)
    return [last[cell] for cell in cells if cell in last]


class Valued(NamedTuple):
    """The kind and the value of an expression, and of an amount the key at which it is read."""

    kind: str
    value: int
    key: int


def deciding(state, execution):
    """The expressions that count for whether a call may have its reply, with their values in a state."""
    method = state.specification.by_name[execution.method]
    names = {**steps.names_in(*state.call(execution)), "reply": execution.reply}
    for whole in [*(let.value for let in method.lets), *(case.allow for case in method.cases)]:
        for each in counted(whole, state, names):
            key = each.parts[0].value(state, names) if each.kind in ("shown", "hidden") else None
            yield Valued(each.kind, each.value(state, names), key)


def counted(expression, state, names):
    """The expressions that count for the value of one, from the left: each behind those that it is made of, itself last."""
    for part in parts_at(expression, state, names):
        yield from counted(part, state, names)
    yield expression


def keys_read(kind, found):
    """The keys at which amounts of a kind are read, each once, in the order of first occurrence."""
    return dict.fromkeys(each.key for each in found if each.kind == kind)


def ends_of(items):
    """How many elements a list has, and which ones stand at its ends."""
    return f"size {len(items)} first {worth(of_list('first', items))} last {worth(of_list('last', items))}"


def answers(past, execution):
    """What a call would be answered where it stands, and behind each later commit up to its return that changes that."""
    lines, last = [], None
    commits = [line for line in past.commit_lines if execution.line < line < execution.return_line]
    for line in [execution.line, *commits]:
        now = answer_behind(past, line, execution)
        if now != last:
            lines.append(f"answer from line {line}: {now}")
        last = now
    return lines


def answer_behind(past, line, execution):
    """What a call would be answered in the state behind a line."""
    state = past.state(execution.arguments[:1], line)
    if past.log.specification:
        return worth(steps.answer_of(*state.call(execution)))
    return answer(past.log.subject, execution.method, state[execution.arguments[0]])


def races(past):
    """What the write on the named line races with: blocks that have written its word, and writes behind its own block's commit."""
    write = next(entry for entry in past.log.entries() if entry.line == past.log.marked_line)
    lines = []
    for caller, block in sorted(past.walk.blocks.items()):
        same = [other.line for other in block.writes if other.numbers[0] == write.numbers[0]]
        if same and caller != write.caller:
            lines.append(f"held by line {same[-1]}")
    own = past.walk.blocks.get(write.caller)
    for other, at in past.effects(own.effect.at.line) if own and own.effect else ():
        if other.numbers[0] == write.numbers[0] and other.caller != write.caller:
            lines.append(f"passed at line {other.line}: word {other.numbers[0]}, in effect at line {at.line}")
    return lines


def left_open(past):
    """The calls and the blocks that are open behind the entries, in the order of the callers."""
    lines = []
    for caller, execution in sorted(past.walk.executions.items()):
        lines.append(f"open call at line {execution.line}")
        if caller in past.walk.blocks:
            lines.append(f"open block at line {past.opened[caller]}")
    return lines
