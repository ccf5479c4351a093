"""A walk along a log: which calls and blocks are open on a line, which writes take effect where, and which calls commit.

It trusts the log's rules: a log has been judged before it is explained. What the rules forbid makes it find less, and no more.
"""

from collections import deque

from calls import Execution


class Effect:
    """The writes that take effect at an entry. They aren't known (None) while a block is open that has its commit there."""

    __slots__ = ("at", "writes")

    def __init__(self, at, writes):
        self.at, self.writes = at, writes


class Block:
    """A caller's open block: its writes, and what takes effect at the lone commit inside it, if there is one."""

    def __init__(self):
        self.writes, self.effect = [], None


class Walk:
    """Where a walk has come to. Effects and commits are kept in the order of their lines until they and all before are known."""

    def __init__(self):
        self.executions, self.blocks = {}, {}  # by caller, those that are open
        self.effects, self.commits, self.has_ended = deque(), deque(), False

    def take(self, entry):
        """Goes on over an entry, and gives the execution that it belongs to, or None."""
        kind, caller = entry.kind, entry.caller
        if kind == "write":
            block, entry.execution = self.blocks.get(caller), self.executions.get(caller)
            if block:
                block.writes.append(entry)
            else:
                self.effects.append(Effect(entry, [entry]))
            return entry.execution
        if kind == "call":
            self.executions.pop(caller, None)  # so that the open ones stand in the order of their calls
            self.executions[caller] = Execution(entry)
        elif kind != "return":
            self._mark(entry, self.blocks.get(caller))
        execution = self.executions.get(caller)
        if execution and entry.commits and not execution.commit_line:
            self.commits.append(execution)
        elif execution and kind == "return":
            del self.executions[caller]
        if execution:
            execution.take(entry)
        return execution

    def _mark(self, entry, block):
        """Goes on over a commit, or over the begin or the end of a block."""
        if entry.kind == "open":
            self.blocks[entry.caller] = Block()
        elif block and entry.kind == "commit":
            block.effect = Effect(entry, None)
            self.effects.append(block.effect)
        elif block:
            del self.blocks[entry.caller]
            if block.effect:
                block.effect.writes = block.writes
            else:
                self.effects.append(Effect(entry, block.writes))

    def next_effect(self):
        """The next effect, if it is known, and None otherwise."""
        return self.effects.popleft() if self.effects and self.effects[0].writes is not None else None

    def next_commit(self):
        """The next execution that committed, if its reply is known or never will be, and None otherwise."""
        return self.commits.popleft() if self.commits and (self.commits[0].return_line or self.has_ended) else None

    def is_settled(self, line):
        """Whether all is known that takes effect or commits up to a line."""
        effects, commits = self.effects, self.commits
        return not (effects and effects[0].at.line <= line) and not (commits and commits[0].commit_line < line)

    def end(self):
        """At the end of a log: what isn't known by now never is, and has no effect."""
        self.has_ended = True
        self.effects = deque(effect for effect in self.effects if effect.writes is not None)
