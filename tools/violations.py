"""What there is to say of a violation: what `vyrd explain` and `vyrd follow` say that has to do with it, and what the log has on the
lines that they name."""

from itertools import chain

from answers import NO_VERDICT, other_log
from calls import Execution, along
from command import Ended
from explained import Explained, Last
from followed import Followed, Step, Write
from names import keys_of, part_of

NEAR = 3  # lines: a note so far from a line may tell where in a program that line comes from
VIEW, REPLY, OBSERVER = "view", "reply", "observer"


class Violation:
    """What the program says of a violation, and what the log has on the lines that it names.

    `said` are the lines of `explain`. Of those of `follow`, `own` are the writes to the parts that the call wrote, from its call up
    to the named line; `turns` are the ones that changed what the words show at an observer's key; `steps` are what the call does; and
    `written` are the last writes to the words of the parts that show a key by a specification of the user's own. `calls` are
    callers and executions by lines, and `naming` and `later` the executions that name a key.
    """

    def __init__(self, log):
        self.log, self.line, self.said = log, log.marked_line, Explained(log)
        self.kind = VIEW if "view" in log.answer else OBSERVER if "observer" in log.answer else REPLY
        if not self.said.call or not self.said.reply or (self.kind == VIEW and self.said.key is None):
            raise Ended("the checker explains nothing of its verdict", NO_VERDICT)
        self.execution, self.own_parts = written_by(log, self.said.call, self.said.reply)
        self.keys = [] if log.specification else list(dict.fromkeys(keys_of(self.execution)))
        self.own, self.turns, self.steps, self.written = Last(), Last(), [], {}
        self._follow()
        named = [*self.keys, *([] if log.specification or self.kind != VIEW else [self.said.key])]
        self.calls, self.naming, self.later = {}, {key: Last() for key in named}, None
        self._read(self._lines())

    @property
    def key(self):
        """The key that it is about first, or None."""
        if self.kind == VIEW:
            return self.said.key
        return self.keys[0] if self.keys else None

    def _follow(self):
        """Takes what `follow` says up to the named line."""
        given = {part for part, _ in self.said.parts.items} if self.log.specification else set()
        for told in Followed(self.log):
            if isinstance(told, Write):
                if told.at > self.line:
                    break
                self._take_write(told, given)
            elif isinstance(told, Step) and told.line == self.line:
                self.steps.append(told.doing)

    def _take_write(self, write, given):
        part = part_of(self.log, write.word)
        if part in given:
            self.written[write.word] = write
        if self.kind == OBSERVER:
            if self.keys and write.key == self.keys[0]:
                self.turns.add(write)
        elif part in self.own_parts and write.at > self.said.call:
            self.own.add(write)

    def _read(self, lines):
        """Reads which calls these lines belong to, and which ones name the keys."""
        last, is_wanted = max(lines), self.kind == OBSERVER and self.key is not None
        for entry, execution in along(self.log):
            if entry.line in lines:
                self.calls[entry.line] = entry.caller, execution
            if execution and entry.commits and execution.commit_line == entry.line:
                self._name(execution)
            if entry.line >= last and (self.later or not is_wanted) and self._is_known():
                break
        if not lines <= self.calls.keys():
            raise other_log()

    def _is_known(self):
        """Whether all of these calls have returned."""
        calls = [execution for _, execution in self.calls.values()]
        named = chain(calls, *(last.items for last in self.naming.values()), [self.later])
        return all(each is None or each.return_line for each in named)

    def _lines(self):
        """The lines of which it is to be known to which call they belong."""
        said = self.said
        writes = [*said.changes.items, *self.own.items, *self.turns.items, *self.written.values()]
        answers = [line for line, _ in said.answers.items] + list(said.first_answers.values())
        named = [each.line for each in (*writes, *said.steps)]
        return {said.call, said.reply, self.line, *named, *answers}

    def _name(self, execution):
        """An execution commits: it may name one of the keys."""
        until = self.said.call if self.kind == OBSERVER else self.line
        for key in dict.fromkeys(keys_of(execution)) if self.naming else ():
            if key in self.naming and execution.commit_line < until:
                self.naming[key].add(execution)
            elif key in self.naming and execution.commit_line > self.line and not self.later:
                self.later = execution


def written_by(log, call_line, return_line):
    """The execution between these two lines, and the parts that it writes."""
    execution, parts = None, set()
    for line, text, _, _ in log.lines():
        if line > return_line:
            break
        if line < call_line or (execution and not text.startswith(f"{execution.caller} ")):
            continue
        entry = log.entry(line, text)
        if line == call_line and entry:
            execution = Execution(entry)
        elif entry and execution:
            execution.take(entry)
            if entry.kind == "write":
                parts.add(part_of(log, entry.numbers[0]))
    if not execution or execution.return_line != return_line:
        raise other_log()
    return execution, parts


def notes_near(log, lines):
    """The notes near these lines, with their lines and lengths."""
    near = {line + away for line in lines for away in range(-NEAR, NEAR + 1)}
    for line, text, length, _ in log.lines():
        if line > max(near):
            return
        if line in near and log.is_note(line, text, length):
            yield line, text, length
