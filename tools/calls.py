"""Which call an entry of a log belongs to: a walk along its lines, which trusts that they keep the rules of shape."""


class Execution:
    """A call with what follows of it: the line of its commit, and its reply."""

    def __init__(self, call):
        self.caller, self.method, self.arguments, self.line = call.caller, call.method, call.numbers, call.line
        self.commit_line, self.return_line, self.reply = None, None, None

    def __str__(self):
        return " ".join([self.method, *map(str, self.arguments)])

    def take(self, entry):
        """Goes on over an entry of its caller."""
        if entry.commits and not self.commit_line:
            self.commit_line = entry.line
        elif entry.kind == "return":
            self.return_line, self.reply = entry.line, entry.numbers[0]


def along(log):
    """Each entry of a log, with the execution that it belongs to, or None. Of that all is known that stands up to the entry."""
    is_open = {}
    for entry in log.entries():
        if entry.kind == "call":
            is_open[entry.caller] = Execution(entry)
        execution = is_open.get(entry.caller)
        if execution:
            execution.take(entry)
        if entry.kind == "return":
            is_open.pop(entry.caller, None)
        yield entry, execution
