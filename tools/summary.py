"""An answer in two sentences, for the top of a page: what is wrong, where to look first, and the two things that don't fit."""

from typing import NamedTuple

from explanation import meaning_of, said_reply
from names import amount_at, meant, name_of_word, told
from ownsayings import done_by
from sayings import taking_effect, with_reply
from violations import OBSERVER, VIEW


class Summary(NamedTuple):
    """The sentences, the lines to look at first, the key that they are about, and two or more names with what belongs to them."""

    sentence: str
    clue: str = ""
    lines: tuple = ()
    key: int = None
    names: tuple = ()
    texts: tuple = ()


WORDS_AND_HAS = ("The words show it", "The specification has it")


def summary_of(log, violation):
    """The summary of an answer, and of what was found of it if it is a violation."""
    said = log.answer or ""
    if said.startswith("malformed"):
        return Summary(f"The log itself is wrong on line {log.marked_line}: {meaning_of(log, said.split(': ', 1)[1])}.")
    if not violation:
        return Summary("No fault was found in this log." if said.startswith("accepted") else "There is no verdict about this log.")
    return {VIEW: view, OBSERVER: observer}.get(violation.kind, reply)(log, violation)


def about_changes(log, violation):
    """The writes since the commit before that changed what the words show at the key: their lines, and a sentence."""
    said, changes = violation.said, violation.said.changes
    since = f"Since line {said.agreed}, the commit before," if said.agreed else "Since the start"
    if not changes.count:
        return f"{since} no write changed that: one is missing or changed nothing, or the commit stands at the wrong place.", ()
    change = changes.items[-1]
    count = "one write" if changes.count == 1 else f"{changes.count} writes"
    which = "" if changes.count == 1 else "; the last is"
    caller = violation.calls[change.line][0]
    done = f"line {change.line}, caller {caller}, {name_of_word(log, change.word)} {change.before} -> {change.value}"
    clue = f"{since} {count} changed what the words show there{which}: {done}{taking_effect(change)}."
    return clue, tuple(found.line for found in changes.items)


def view(log, violation):
    """Two views that differ."""
    said, is_own = violation.said, log.specification is not None
    texts = tuple(amount_at(log, said.key, amount) for amount in (said.shown, said.has))
    clue, lines = about_changes(log, violation)
    about = f"key {said.key}" if is_own else meant(log.subject, log.size, said.key)
    commits = f"`{violation.execution}` commits on line {log.marked_line}."
    sentence = f"{commits} After it the words and the specification disagree about {about}."
    return Summary(sentence, clue, lines, said.key, WORDS_AND_HAS, texts)


def reply(log, violation):
    """A reply that the state doesn't allow."""
    said, execution = violation.said, violation.execution
    right = " or ".join(map(str, said.allowed)) or "none of those tried"
    begin = f"`{execution}` commits on line {log.marked_line}, "
    if log.specification:
        sentence = f"{begin}and no case of the specification allows its reply there."
    else:
        size = log.size
        has = [f"{meant(log.subject, size, key)} {told(log.subject, size, key, amount)}" for _, key, amount in said.state]
        sentence = f"{begin}where the specification has {', and '.join(has)}."
    clue, lines = last_step(log, violation)
    return Summary(sentence, clue, lines, violation.key, ("It replied", "Allowed is"), (str(execution.reply), right))


def last_step(log, violation):
    """The last step before the fault that changed what the state has there: a sentence, and its line."""
    steps = violation.said.steps
    if not steps:
        return "No commit before it changed that.", ()
    line = max(step.line for step in steps)
    where = f"on line {line}: {with_reply(violation.calls[line][1])}"
    if log.specification:
        where += ": " + "; ".join(dict.fromkeys(done_by(log.specification, step.doing) for step in steps if step.line == line))
    return f"The last commit before it that changed what is there is {where}.", (line,)


def observer(log, violation):
    """A reply without a commit that is right in no state."""
    execution, said = violation.execution, violation.said
    texts = [said_reply(log, execution, right) + since(line, execution) for right, line in said.first_answers.items()]
    if log.specification:
        clue, lines, names = "", (), ("It replied", "Its answer was")
    else:
        (clue, lines), names = last_naming(log, violation), ("It replied", "Right was")
    sentence = f"`{execution}`, from line {execution.line} to line {log.marked_line}"
    sentence += ", replies what is right in no state between these lines."
    replied = said_reply(log, execution, execution.reply)
    return Summary(sentence, clue, lines, violation.key, names, (replied, "\n".join(texts)))


def last_naming(log, violation):
    """The last commit before the call that names the key: a sentence, and its line."""
    named, name = violation.naming[violation.key], meant(log.subject, log.size, violation.key)
    if not named.count:
        return f"No commit before it names {name}.", ()
    last = named.items[-1]
    return f"The last commit before it that names {name} is on line {last.commit_line}: {with_reply(last)}.", (last.commit_line,)


def since(line, execution):
    """From where on an answer was right."""
    return f", on line {line}" if line == execution.line else f", after line {line}"
