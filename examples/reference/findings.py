"""Which entries of a log its subject can have. The verdict stands before the first one that it can't."""

from logtext import METHODS, MOST_WORD
from names import keys_of
from walk import Execution
from words import NO_CHARACTER


def sound_entries(log):
    """The entries up to the first call that the subject doesn't have. The verdict stood before that."""
    for entry in log.entries():
        if entry.kind == "call" and not is_sound(log, entry):
            return
        yield entry


def is_sound(log, call):
    """Whether a call is one of the subject, with arguments that it may have."""
    if log.specification:
        method = log.specification.by_name.get(call.method)
        return method is not None and len(call.numbers) == len(method.parameters) and max(call.numbers, default=0) <= MOST_WORD
    execution, count = Execution(call), METHODS[log.subject].get(call.method)
    if len(call.numbers) != count or max(call.numbers) > MOST_WORD:
        return False
    if log.subject in ("cache", "buffers") and max(keys_of(execution)) >= log.size:
        return False
    return call.method != "append" or call.numbers[1] < NO_CHARACTER
