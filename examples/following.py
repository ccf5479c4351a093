"""The lines that `vyrd follow` has to write behind a verdict, worked out by the modules of reference/. They share nothing with it."""

from collections import Counter

from amounts import shown_by
from doings import specified
from explaining import NO_STATE, told
from fronts import front, has_begun, starting
from judging import checked
from parted import words_at_start
from walk import Walk


def lines_along(log):
    """The lines behind the verdict `log.answer`: none if no header is read."""
    if not log.subject:
        return
    following = Following(log, starting(log))
    if stand_for_state(log):
        yield from following.begin()
    walk = Walk()
    for entry in front(log):
        walk.take(entry)
        yield from following.drain(walk)
    walk.end()
    yield from following.drain(walk)


def stand_for_state(log):
    """Whether the words at the start stand for a state. The verdict says it, unless the log stops before that counts."""
    if log.answer.endswith(NO_STATE):
        return False
    if log.answer.startswith("accepted") or has_begun(log):
        return True
    before = (text for line, text, _, is_ended in log.lines() if is_ended and line < log.marked_line)
    return checked("".join(f"{text}\n" for text in [*before, "end"]))[0] == 0


class Following:
    """The words of a log, what they show, and the specification's state, `None` if it isn't known."""

    def __init__(self, log, starting_words):
        self.log, self.words, self.specification = log, words_at_start(log, starting_words), None
        self.shown = shown_by(self.words, self.words.of_part) if self.words.of_part else None
        self.amounts = Counter(self.shown.amounts if self.shown else ())

    def begin(self):
        """What words and state have at the start."""
        self.specification = specified(self.log, self.amounts)
        return [f"agreed at the start: {told(key, self.amounts)}" for key in sorted(self.amounts)]

    def drain(self, walk):
        """What is known by now: of each entry the writes that take effect there, and then what its step does."""
        while walk.effects or walk.commits:
            line = walk.commits[0].commit_line if walk.commits else float("inf")
            if walk.effects and walk.effects[0].at.line <= line:
                effect = walk.next_effect()
                if not effect:
                    return
                for write in effect.writes:
                    yield from self.write(write, effect.at.line)
            else:
                execution = walk.next_commit()
                if not execution:
                    return
                yield from self.step(execution)

    def write(self, write, line):
        """What a write changes that takes effect on a line."""
        (word, value), was = write.numbers, self.words[write.numbers[0]]
        changed = self._written(word, value)
        text = f"at line {write.line}: word {word} from {was} to {value}, in effect at line {line}"
        if not changed:
            yield f"write {text}"
        for key, amount in sorted(changed.items()):
            yield f"change {text}, {told(key, self.amounts)} to {amount}"
            self.amounts[key] = amount

    def _written(self, word, value):
        """Writes a word, and gives the keys of which the words then show another amount, with that."""
        if self.shown:
            return self.shown.write(word, value)
        self.words[word] = value
        return {}

    def step(self, execution):
        """What the step of a commit does. There are no more steps from one on that isn't known, or whose reply isn't allowed."""
        done = self.specification.step(execution) if self.specification and execution.return_line else None
        if done is None:
            self.specification = None
        return [f"step at line {execution.commit_line}: {doing.told}" for doing in done or ()]
