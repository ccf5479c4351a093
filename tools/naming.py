"""Which lines of a log have to do with some keys: those of the executions that are called with one, or that write one."""

from calls import Execution
from command import tell
from logtext import START
from names import PART_WORDS, keys_of


def lines_naming(log, keys):
    """The numbers of the lines of all executions that name one of the keys, and of the one that the answer is about.

    The starting lines that write a key are among them, and the line that the answer names. What nothing names is told.
    """
    chosen, of_call, named, unnamed = set(), {}, set(), set(keys)  # of_call: by caller, the lines of its open call so far
    for line, text, _, _ in log.lines():
        entry = log.entry(line, text)
        found = {key for key in keys if (is_naming(log, entry, key) if entry else is_start_with(log, line, text, key))}
        unnamed -= found
        if line == log.marked_line or (found and not entry):
            chosen.add(line)
        if not entry:
            continue
        caller = entry.caller
        if entry.kind == "call":
            of_call[caller] = []
            named.discard(caller)
        if caller in of_call:
            of_call[caller].append(line)
            if line == log.marked_line or found:
                named.add(caller)
            if caller in named:
                chosen.update(of_call[caller])
                of_call[caller].clear()
        if entry.kind == "return":
            of_call.pop(caller, None)
    for key in sorted(unnamed):
        tell(f"no call names the key {key}")
    return chosen


def is_start_with(log, line, text, key):
    """Whether a line is a starting line that writes the key."""
    start = START.fullmatch(text) if line > log.front else None
    return bool(start) and part_of(log, key) in written(log, int(start[1]), int(start[2]))


def is_naming(log, entry, key):
    """Whether an entry names a key."""
    return part_of(log, key) in named_by(log, entry)


def named_by(log, entry):
    """The keys that an entry names. Without a sound header it isn't known what one is."""
    if entry.kind == "call" and log.subject:
        return entry.numbers if log.specification else keys_of(Execution(entry))
    if entry.kind == "write":
        return written(log, *entry.numbers)
    return entry.numbers if entry.kind == "return" and log.specification else ()


def written(log, word, value):
    """The key that a write of a value to a word writes."""
    if log.subject in ("cache", "buffers"):
        return (word // PART_WORDS[log.subject],)
    is_key = {"multiset": word % 2 == 1, "tree": word % PART_WORDS["tree"] in range(4, 8)}
    return (value,) if log.specification or is_key.get(log.subject) else ()


def part_of(log, key):
    """The key itself, or the chunk or the buffer whose damage it stands for."""
    return key - log.size if log.subject in ("cache", "buffers") and key >= log.size else key
