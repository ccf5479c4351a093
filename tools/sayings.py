"""What explain says of any log: calls, writes and commits in sentences, and lists of which the last ones are said."""

from explained import MOST
from names import amount_at, name_of_word


def taking_effect(write):
    """Where a write takes effect, if that isn't its own line."""
    if write.at == write.line:
        return ""
    return f", in effect {'at the commit ' if write.at < write.line else ''}on line {write.at}"


def of_later_call(execution, line):
    """The call that a write belongs to, if it hasn't committed up to a line. A write outside calls has none."""
    if execution is None or (execution.commit_line and execution.commit_line <= line):
        return ""
    if execution.commit_line:
        return f", in `{execution}`, which commits on line {execution.commit_line}"
    return f", in `{execution}`, which " + ("has no commit" if execution.return_line else "never commits")


def with_reply(execution):
    """A call, and its reply."""
    replied = f"with reply {execution.reply}" if execution.return_line else "which didn't return"
    return f"caller {execution.caller}, `{execution}` {replied}"


def say_call(execution):
    """The call that the named line belongs to."""
    said = f"caller {execution.caller}: `{execution}`, called on line {execution.line}"
    if execution.commit_line:
        said += f", committed on line {execution.commit_line}"
    print(f"\nThe call\n  {said}, replied {execution.reply} on line {execution.return_line}")


def some_of(last, most=MOST):
    """The last of what was found, after a line that says how many there were before them."""
    if last.count > most:
        print(f"  ({last.count - most} before these)")
    return list(last.items)[-most:]


def say_title(title, last):
    """A title, which says if nothing stands below it."""
    print(f"\n{title}" + ("" if last.count else ": none"))


def say_writes(violation, last):
    """Writes, with what they change at a key if they are told for one."""
    log = violation.log
    for write in some_of(last):
        caller, execution = violation.calls.get(write.line, (None, None))
        change = f"{name_of_word(log, write.word)} {write.before} -> {write.value}{taking_effect(write)}"
        if write.key is not None:
            name = "shown" if write.key == violation.key else f"shown at key {write.key}"
            change += f"; {name} {amount_at(log, write.key, write.was)} -> {amount_at(log, write.key, write.amount)}"
        print(f"  line {write.line}: caller {caller}, {change}{of_later_call(execution, log.marked_line)}")


def say_commits(title, commits, most=MOST):
    """Commits that name a key."""
    say_title(title, commits)
    for execution in some_of(commits, most):
        print(f"  line {execution.commit_line}: {with_reply(execution)}")
