"""What explain says of a log of version 3: what the state has and what steps do, by the names of its specification."""

from expressions import worth
from logtext import shown
from sayings import some_of
from specification import CASES, CHANGES, CONSTANTS, LINES, LISTS, LONGEST, METHODS, NAMES, PARAMETERS, REGISTERS, SHOWS
from violations import notes_near

RULES_OF_OWN = {
    "bad header": "a header of version 3 is `vyrd 3 own WORDS CALLERS`",
    "line too long": f"a line of a specification has at most {LONGEST} bytes",
    "bad specification line": "it is no line of a specification; tools/lint says what may be meant",
    "line out of place": "such a line can't stand here; tools/lint says where it can",
    "name taken": "something else has that name; tools/lint says what",
    "unknown name": "nothing has that name here; tools/lint says what may be meant",
    "too many": f"there are at most {LINES:,} lines, {CONSTANTS} constants, {REGISTERS} registers, {LISTS} lists, {SHOWS} `shows`,"
    f" {METHODS} methods, {PARAMETERS} parameters, {NAMES} names and {CASES} cases a method, and {CHANGES} changes a case",
    "too deep": "expressions stand at most 32 deep one within the other",
    "state is read here": "`shows` sees the words of a part, and not the state",
    "method without a case": "each method has an answer or a case",
    "no method": "a specification has a method",
    "no commit": "a method that has no answer commits once before it returns",
    "observer commits": "a method that has no case has no commit",
    "caller out of range": "the header has fewer callers; they count from 0",
    "word out of range": "the header has fewer words; they count from 0",
    "start out of range": "a word that the header has, and a value from 1 to below 2^63",
    "start stands for no state": "the words aren't a whole number of parts, or show too much of a key",
}


def say_notes(log, lines):
    """The notes near these lines: where in a program they come from, if the logger says it."""
    notes = list(notes_near(log, lines))
    if notes:
        print("\nNotes near it")
    for line, text, length in notes:
        print(f"  line {line}: {shown(text, length)}")


def held_by(specification, held):
    """What a state has, by the names of the specification."""
    kind, number, value = held
    if kind == "list":
        ends = f"{value.size} element{'s' * (value.size != 1)}, first {worth(value.first)}, last {worth(value.last)}"
        return f"list {list(specification.lists)[number]}: {ends if value.size else 'empty'}"
    if kind == "register":
        return f"register {list(specification.registers)[number]} = {worth(value)}"
    return f"{amount_name(kind, number)} = {worth(value)}"


def amount_name(kind, key):
    """An amount by its key, as a specification spells it."""
    opened, closed = "[]" if kind == "key" else "{}"
    return f"{opened}{worth(key)}{closed}"


def done_by(specification, doing):
    """What a step does, by the names of the specification."""
    if doing.kind is None:
        return doing.verb
    if doing.kind == "list":
        brought = "" if doing.value is None else f" {worth(doing.value)}"
        return f"{doing.verb} {list(specification.lists)[doing.number]}{brought}"
    is_register = doing.kind == "register"
    name = list(specification.registers)[doing.number] if is_register else amount_name(doing.kind, doing.number)
    return f"set {name} {worth(doing.value)}"


def say_method(log, execution, has_cases):
    """What the specification says of a method, as it stands there."""
    method = log.specification.by_name[execution.method]
    print(f"\n`{method.name}` in the specification")
    for let in method.lets:
        print(f"  line {let.line}: let {let.name} {let.value}")
    if method.answer:
        print(f"  line {method.answer.line}: answer {method.answer.value}")
    for case in method.cases if has_cases else ():
        print(f"  line {case.line}: allow {case.allow}")


def say_steps(violation):
    """What the call does by the specification."""
    print("\nWhat it does by the specification" + ("" if violation.steps else ": nothing"))
    for doing in violation.steps:
        print(f"  {done_by(violation.log.specification, doing)}")


def say_words_of_parts(violation):
    """The parts that give the key, with their words and who wrote them last."""
    said, each = violation.said, violation.log.specification.part
    print(f"\nParts that give key {said.key}" + ("" if said.parts.count else ": none"))
    starting = violation.log.starting() if said.parts.count else {}
    for part, amount in some_of(said.parts):
        print(f"  part {part} gives {amount}")
        for place in range(each):
            word = part * each + place
            write = violation.written.get(word)
            value = write.value if write else starting.get(word, 0)
            print(f"    word {word} (w{place}) = {value}{last_write(violation, write, value)}")


def last_write(violation, write, value):
    """Where a word was written last."""
    if write:
        return f", written on line {write.line} by caller {violation.calls[write.line][0]}"
    return ", as at the start" if value else ", never written"
