"""What makes one fault of a kind the same as another: what is to stay true of a log while executions of it go.

Without it a log would shrink to a fault that is another one. Each delete that finds its element is wrong by itself, on a
structure that is empty, and each flush of a cache where nobody has written what it stores. All of it is what `vyrd explain` and
`vyrd follow` say of the log, and what `vyrd check` says of the same log with a question put into it
(questions.py).
"""

from typing import NamedTuple

from answers import other_log
from calls import Execution
from explained import Explained
from followed import Agreed, Followed, Write
from names import NODE, PART_WORDS, keys_of, part_of
from questions import first_call, first_reply, same_reply

RIGHT = NODE.index("right")


class Evidence(NamedTuple):
    """What is to stay.

    `over` is what the words were that the call at fault wrote, and `taken_out` in a tree the nodes that it wrote and to which
    another call had taken away the link, each with whether that changed what the words show. Of two views that differ there is
    what they show. Of a reply there is whether it was right in a state before, and of an observer's that wasn't, `seen`: what the
    words show at its key, and whether its right answer changes while it is open.
    """

    over: tuple = ()
    taken_out: tuple = ()
    views: tuple = ()
    was_right: bool = False
    seen: tuple = ()

    def is_kept(self, other):
        """Whether another log, which has less, has the same fault."""
        if (self.over, self.taken_out, self.views) != (other.over, other.taken_out, other.views):
            return False
        return other.was_right if self.was_right else self.seen == other.seen


def evidence(log, own, check):
    """The evidence in a log, where the call at fault has these lines. `check` gives the answer to a text that is a log."""
    if not log.answer.startswith("violation"):
        return Evidence()
    said = Explained(log)
    if said.key is not None:
        written = Written(log, own, said.key)
        return Evidence(written.over, written.taken_out, views=written.views(said))
    execution = of_call(log, own)
    written = Written(log, own, None if log.specification else keys_of(execution)[0])
    if any(question.is_right(check(question.text)) for question in questions(log, own, execution, said)):
        return Evidence(written.over, written.taken_out, was_right=True)
    seen = (written.shown, said.answers.count > 1) if said.answers.count else ()
    return Evidence(written.over, written.taken_out, seen=seen)


def of_call(log, own):
    """The execution at fault."""
    execution, last = None, max(own)
    for entry in log.entries():
        if entry.line in own and entry.kind == "call":
            execution = Execution(entry)
        elif entry.line in own:
            execution.take(entry)
        if entry.line >= last:
            break
    if not execution or not execution.return_line:
        raise other_log()
    return execution


def questions(log, own, execution, said):
    """What asks whether a reply was right before: in some state, or before the last steps that changed what the call looks at."""
    if not execution.commit_line:
        yield first_call(log, own, execution)
    elif log.specification:
        yield first_reply(log, execution)
    else:
        yield from (same_reply(log, execution, line) for line in dict.fromkeys(step.line for step in said.steps))


class Written:
    """What the writes up to the fault wrote over, and what they show at a key to one who sees each where it stands."""

    def __init__(self, log, own, key):
        self.log, self.own, self.key, self.shown, self.last = log, own, key, 0, None
        self._over, self._nodes, self._unlinked = [], set(), {}
        self.part = key % log.size if log.subject in ("cache", "buffers") and key is not None else None
        self.words = {word: value for word, value in log.starting().items() if self._is_in_part(word)}
        for told in Followed(log):
            if isinstance(told, Agreed) and told.key == key:
                self.shown = told.amount
            elif isinstance(told, Write):
                self._take(told)

    def _is_in_part(self, word):
        return self.part is not None and part_of(self.log, word) == self.part

    def _take(self, write):
        """Goes on over a write, which may be told more than once."""
        if write.key == self.key and self.key is not None and write.line < self.log.marked_line:
            self.shown = write.amount
        if write.at > self.log.marked_line or (write.line, write.at) == self.last:
            return
        self.last = write.line, write.at
        is_own = write.line in self.own
        if is_own:
            self._over.append(write.before)
        if self._is_in_part(write.word):
            self.words[write.word] = write.value
        if self.log.subject == "tree":
            self._take_node(write, is_own)

    def _take_node(self, write, is_own):
        """Goes on over a write to a tree: one to a right word takes a link away from a node, and may lead to another one."""
        node, offset = divmod(write.word, PART_WORDS["tree"])
        if is_own:
            self._nodes.add(node)
        if offset == RIGHT and write.before != write.value:
            if write.before and not is_own:
                self._unlinked[write.before] = write.key is not None
            self._unlinked.pop(write.value, None)

    @property
    def over(self):
        """What the words were that the call at fault wrote."""
        return tuple(self._over)

    @property
    def taken_out(self):
        """The nodes that it wrote and to which another call had taken away the link, and whether that changed what is shown."""
        return tuple((node, self._unlinked[node]) for node in sorted(self._nodes) if node in self._unlinked)

    def views(self, said):
        """Of a chunk or a buffer its words, and otherwise by how much two views differ."""
        if self.part is not None:
            return tuple(sorted((word, value) for word, value in self.words.items() if value))
        return (said.shown - said.has,)
