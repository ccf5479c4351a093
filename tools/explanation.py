"""What there is to say of an answer, in sentences: what the program says has to do with it, by the names and the calls of the log."""

from answers import other_log
from calls import along
from explained import Explained, Last
from expressions import worth
from logtext import shown
from names import amount_at, meant, name_of_part, name_of_word, told
from ownsayings import RULES_OF_OWN, done_by, held_by, say_method, say_notes, say_steps, say_words_of_parts
from sayings import say_call, say_commits, say_title, say_writes, some_of, with_reply
from violations import OBSERVER, VIEW, Violation

RULES = {
    "caller out of range": "the header has fewer callers; they count from 0",
    "argument out of range": "chunks and buffers count from 0, and are below the header's size; a character is below 255",
    "call inside a call": "this caller's last call hasn't returned",
    "no call open": "this caller has no open call; every write, block, commit and return stands inside one",
    "return inside a block": "this caller's block is still open",
    "no commit": "a method that may change something commits once before it returns",
    "word out of range": "the structure has fewer words at this size",
    "value out of range": "values are below 2^63",
    "block raced": "two callers write one word at a time: a finding about the program that wrote the log",
    "observer commits": "lookup, read and length have no commit",
    "second commit": "this call has committed before",
    "commit inside a block": "in version 1 a block commits with its end, by `close commit`",
    "block inside a block": "this caller's block is still open",
    "no block open": "this caller has opened no block that is still open",
    "call not returned": "each call returns before `end`",
    "text after end": "nothing follows the line `end`, not even an empty line",
    "unknown version": "there are the versions 1 and 2",
    "start out of range": "a word that the structure has, and a value from 1 to below 2^63",
    "start word not rising": "a starting word is greater than the one before it",
    "start stands for no state": "no structure has such words between two operations (docs/LOG-FORMAT.md)",
    "no end": "the input ends before the line `end`: it was cut off, or the program that wrote it stopped",
    "too many lines": "a log has at most 268,435,456 lines",
    "no line feed": "the input ends inside this line: it was cut off, or the last line feed is missing",
}


def say_own_writes(violation):
    """All writes to the slots, chunks, buffers, nodes or parts that the call had written, from its call on, by whomever."""
    if not violation.own.count:
        print("\nIt had written nothing by then")
        return
    print("\nWrites from its call on to the parts that it wrote itself")
    say_writes(violation, violation.own)


def say_parts(violation):
    """The parts of the words that show the key."""
    log, said = violation.log, violation.said
    say_title(f"Parts of the words that show key {said.key}", said.parts)
    for part, amount in some_of(said.parts):
        print(f"  {name_of_part(log, part)}: {told(log.subject, log.size, said.key, amount)}")


def say_key(violation):
    """Both views were equal at the commit before. What the call makes of the key, and what the words show."""
    log, said = violation.log, violation.said

    def say(amount):
        return amount_at(log, said.key, amount)

    print(f"\nKey {said.key}" + ("" if log.specification else f": {meant(log.subject, log.size, said.key)}"))
    at_last = f"on line {said.agreed}, at the commit before" if said.agreed else "at the start"
    print(f"  {at_last}, both views show {say(said.before) if log.specification else f'it {say(said.before)}'}")
    shows = say(said.shown) if log.specification else f"it {say(said.shown)}"
    print(f"  this call makes that {say(said.has)}; the words show {shows}")


def say_changes(violation):
    """The writes since the commit before that changed what the words show at the key."""
    said = violation.said
    since = f"since line {said.agreed}" if said.agreed else "since the start"
    say_title(f"Writes {since} that changed what the words show at key {said.key}", said.changes)
    say_writes(violation, said.changes)
    if not said.changes.count:
        print("  So a write is missing or changed nothing, or the commit stands at the wrong place.")


def explain_view(violation):
    """What changed the key since both views were equal, in words and by the call."""
    is_own = violation.log.specification is not None
    if is_own:
        say_steps(violation)
    say_key(violation)
    (say_words_of_parts if is_own else say_parts)(violation)
    say_changes(violation)
    say_own_writes(violation)
    for key, commits in violation.naming.items():
        if key == violation.key or violation.execution.method == "append_from":
            say_commits(f"Commits before it that name {key}", commits, 3)


def say_state(violation):
    """What the state has before the commit, and which replies it allows."""
    log, said = violation.log, violation.said
    empty = "" if said.state else ": it has no register and no list, and no amount is read"
    print(f"\nThe state before line {violation.line}{empty}")
    for held in said.state:
        if log.specification:
            print(f"  {held_by(log.specification, held)}")
        else:
            print(f"  {meant(log.subject, log.size, held.number)}: {amount_at(log, held.number, held.value)}")
    if log.specification:
        say_method(log, violation.execution, True)
    right = " or ".join(map(str, said.allowed))
    print(f"  Allowed would be {right}." if right else "  Of the replies that were tried none would be allowed.")


def say_last_steps(violation):
    """The steps that set last what the state has."""
    log, steps = violation.log, Last()
    for step in violation.said.steps:
        steps.add(step)
    say_title("The last steps before it that changed what is there", steps)
    for line, doing in some_of(steps):
        if log.specification:
            done = done_by(log.specification, doing)
        else:
            done = f"{meant(log.subject, log.size, doing.number)}: {amount_at(log, doing.number, doing.value)}"
        print(f"  line {line}: {with_reply(violation.calls[line][1])}: {done}")


def explain_reply(violation):
    """What the state has of what the call looks at, which replies that allows, and what made it so."""
    say_state(violation)
    say_last_steps(violation)
    for key, commits in violation.naming.items():
        say_commits(f"Commits before it that name {key}", commits, 3)
    if not violation.log.specification:
        say_own_writes(violation)


def explain_observer(violation):
    """Which replies are right from the call to the return, and what wrote to the key's words."""
    log, key = violation.log, violation.key
    print("\nWhat it may reply: what is right somewhere between its call and its return")
    for line, right in some_of(violation.said.answers):
        at_call = line == violation.said.call
        after = "from its call on" if at_call else f"after line {line}, {with_reply(violation.calls[line][1])}"
        print(f"  {after}: {said_reply(log, violation.execution, right)}")
    if log.specification:
        say_method(log, violation.execution, False)
        return
    say_commits(f"Commits before its call that name {key}", violation.naming[key])
    later = Last()
    if violation.later:
        later.add(violation.later)
    say_commits(f"The first commit after its return that names {key}", later)
    say_title(f"Writes before its return that changed what the words show at key {key}", violation.turns)
    say_writes(violation, violation.turns)


def said_reply(log, execution, reply):
    """A reply, and what it means if it is a pair or a text in one number."""
    if log.specification:
        return worth(reply)
    means = f": {told(log.subject, log.size, execution.arguments[0], reply)}" if execution.method == "read" else ""
    return f"{reply}{means}"


def explain_violation(violation):
    """Says what was found of a violation."""
    log = violation.log
    print(log.answer)
    say_call(violation.execution)
    if log.specification:
        say_notes(log, (violation.said.call, violation.line, violation.said.reply))
    {VIEW: explain_view, OBSERVER: explain_observer}.get(violation.kind, explain_reply)(violation)


def meaning_of(log, rule):
    """A rule in a sentence."""
    rules = RULES if log.version != "3" else {**RULES, **RULES_OF_OWN}
    return rules.get(rule, "tools/lint says what is wrong with the spelling of a line")


def explain_malformed(log):
    """The rule in a sentence, the line, what is open there, and what that caller was in the middle of."""
    rule, line = log.answer.split(": ", 1)[1], log.marked_line
    written = line_of(log, line, rule)
    entry = log.entry(line, written[0]) if written else None
    said = Explained(log)
    print(log.answer)
    if written:
        print(f"\n  line {line}: {shown(*written)}")
    print(f"\n  {rule}: {meaning_of(log, rule)}")
    if said.held or said.passed.count:
        say_race(log, entry, said)
    say_open_calls(log, said.open)
    if entry and rule not in ("bad entry", "block raced"):
        say_lines_before(log, entry)
    say_notes(log, (line,))


def calls_on(log, lines):
    """The callers and the executions of these lines by the line, and by the caller its last entry before the named line."""
    calls, last = {}, {}
    for entry, execution in along(log) if lines else ():
        if entry.line >= log.marked_line:
            break
        last[entry.caller] = entry
        if entry.line in lines:
            calls[entry.line] = entry.caller, execution
    return calls, last


def say_open_calls(log, found):
    """The calls that are open before the named line, each with its last entry."""
    calls, last = calls_on(log, {each.line for each in found})
    if found:
        print("\nThe calls that are open there")
    for line, block in found:
        caller, execution = calls[line]
        said = f"  caller {caller}: `{shown(str(execution))}`, called on line {line}"
        if execution.commit_line and execution.commit_line < log.marked_line:
            said += f", committed on line {execution.commit_line}"
        if block:
            said += f", with a block open from line {block} on"
        entry = last[caller]
        if entry.kind == "call":
            print(f"{said}, with nothing after it")
            continue
        word = f" ({name_of_word(log, entry.numbers[0])})" if entry.kind == "write" and log.subject else ""
        print(f"{said}; its last entry is line {entry.line}: {shown(entry.text)}{word}")


def line_of(log, named, rule):
    """The text of the named line and its length, or None if it is the one after the last: there the input has ended."""
    last = 0
    for last, text, length, _ in log.lines():
        if last == named:
            return text, length
    if named != last + 1 or rule != "no end":
        raise other_log()
    return None


def say_lines_before(log, entry):
    """The lines of the entry's caller before it."""
    own = Last()
    for other in log.entries():
        if other.line >= entry.line:
            break
        if other.caller == entry.caller:
            own.add(other)
    say_title(f"The lines of caller {entry.caller} before it", own)
    for other in some_of(own):
        print(f"  line {other.line}: {other.caller} {shown(other.text)}")


def say_race(log, entry, said):
    """Who else wrote the word: in a block that is still open, or behind the commit inside the writer's own block."""
    passed = list(said.passed.items)
    calls, _ = calls_on(log, {*said.held, *(each.line for each in passed)})
    name = name_of_word(log, entry.numbers[0])
    for line in said.held:
        print(f"  caller {calls[line][0]} wrote that word, {name}, on line {line}, in a block that is still open")
    for each in some_of(said.passed):
        effect = f", in effect on line {each.at}" if each.at != each.line else ""
        print(f"  caller {calls[each.line][0]} wrote that word, {name}, on line {each.line}{effect}")
    if passed:
        print(f"  that is behind the commit inside caller {entry.caller}'s block, where the writes of that take effect")


def explain(log):
    """Says what there is to say of the answer."""
    if log.answer.startswith("violation"):
        explain_violation(Violation(log))
    elif log.answer.startswith("malformed"):
        explain_malformed(log)
    else:
        print(log.answer)
