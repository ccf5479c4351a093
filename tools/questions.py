"""Logs that ask whether a reply was right in a state before. `vyrd check` answers them.

An observer's reply is right if it is right in some state from its call to its return; so if its call comes first, each state
before counts. In version 3 a call that commits gets an observer beside it: a method that answers what its cases allow. A call
that commits in a built-in structure is put before a step once more, with its reply.
"""

import re
from typing import NamedTuple

WORD = re.compile("[a-z0-9_]+")
NAME = "was_right"  # of the method that is put into a specification


class Question(NamedTuple):
    """A log, and how the answer to it begins if the reply was right in no state that is asked for."""

    text: str
    wrong: str

    def is_right(self, answer):
        """Whether an answer says that the reply was right. A log into which the question can't be put is malformed."""
        return answer.startswith(("accepted", "violation")) and not answer.startswith(self.wrong)


def first_call(log, own, execution):
    """The log with the call of an execution without a commit before all others, and all its lines by a caller of its own."""
    lines, caller = lines_for_one_more(log)
    for line in own:
        lines[line - 1] = f"{caller} {lines[line - 1].partition(' ')[2]}"
    call = lines.pop(execution.line - 1)
    lines.insert(first_entry(log) - 1, call)
    return Question("\n".join(lines), f"violation at line {execution.return_line}: observer reply")


def first_reply(log, execution):
    """The log with an observer that asks, from the start to the commit of an execution, whether a case allows its reply."""
    method, name = log.specification.by_name[execution.method], free_name(log.specification)
    lines, caller = lines_for_one_more(log)
    lines.insert(execution.commit_line - 1, f"{caller} return 1")
    lines.insert(first_entry(log) - 1, " ".join([f"{caller} call {name}", *map(str, execution.arguments)]))
    added = observer_of(method, name, execution.reply)
    lines[log.front - 1 : log.front - 1] = added
    return Question("\n".join(lines), f"violation at line {execution.commit_line + len(added) + 1}: observer reply")


def same_reply(log, execution, line):
    """The log with a call and its reply before the commit on a line too, by a caller of its own."""
    lines, caller = lines_for_one_more(log)
    lines[line - 1 : line - 1] = [f"{caller} call {execution}", f"{caller} commit", f"{caller} return {execution.reply}"]
    return Question("\n".join(lines), f"violation at line {line + 1}: reply")


def lines_for_one_more(log):
    """The lines of a log, with room for one caller more, and its number: the first that no entry has."""
    log.file.seek(0)
    with open(log.file.fileno(), "rb", closefd=False) as file:
        lines = file.read().decode("latin-1").split("\n")
    callers = {entry.caller for entry in log.entries()}
    caller = next(number for number in range(len(callers) + 1) if number not in callers)
    lines[0] = f"{lines[0].rpartition(' ')[0]} {max(log.callers, caller + 1)}"
    return lines, caller


def first_entry(log):
    """The line of the first entry."""
    return next(log.entries()).line


def free_name(specification):
    """A name that nothing in a specification has."""
    names = {*specification.by_name, *specification.names_known()}
    names.update(name for method in specification.methods for name in method.names)
    return next(name for name in (NAME, *(f"{NAME}{number}" for number in range(len(names)))) if name not in names)


def observer_of(method, name, reply):
    """The lines of a method that answers 1 if a case of another one allows a reply, and otherwise 0."""
    answer = "0"
    for case in reversed(method.cases):
        test = WORD.sub(lambda word: str(reply) if word[0] == "reply" else word[0], case.allow.text)
        answer = f"(if {test} then 1 else {answer})"
    lets = [f"  let {let.name} {let.value}" for let in method.lets]
    return [" ".join(["method", name, *method.parameters]), *lets, f"  answer {answer}"]
