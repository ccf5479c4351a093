"""Small specifications and logs of version 3 that chance makes up, right ones and wrong ones, for the tests."""

from expressions import COMPARISONS, NONE, OPERATIONS
from specification import LONGEST, Specification
from steps import State, answer_of, step_of

NUMBERS = ("0", "1", "2", "3", "5", "none", "4294967295", "18446744073709551614")


def expression(chance, names, lists, reads, depth=3):
    """An expression that speaks of these names and lists, and of the state if it may."""
    if depth == 0 or chance.random() < 0.25:
        return chance.choice([*names * 3, *NUMBERS[: chance.choice((4, 8))], *["count"] * reads])

    def inner():
        return expression(chance, names, lists, reads, depth - 1)

    forms = [lambda: f"({inner()} {chance.choice(list(OPERATIONS))} {inner()})"] * 3
    forms += [lambda: f"({inner()} {chance.choice(COMPARISONS)} {inner()})"] * 2
    forms += [lambda: f"(not {inner()})", lambda: f"(if {inner()} then {inner()} else {inner()})"]
    if reads:
        forms += [lambda: f"[{inner()}]", lambda: f"{{{inner()}}}"]
        forms += [lambda: f"({chance.choice(('least', 'greatest'))} {inner()})"]
    if reads and lists:
        forms += [lambda: f"({chance.choice(('first', 'last', 'length'))} {chance.choice(lists)})"] * 2
    return chance.choice(forms)()


class Writer:
    """The lines of a specification that chance makes up."""

    def __init__(self, chance):
        self.chance, self.lines = chance, []
        self.constants = [f"c{place}" for place in range(chance.randrange(3))]
        self.registers = [f"r{place}" for place in range(chance.randrange(3))]
        self.lists = [f"l{place}" for place in range(chance.randrange(3))]
        self.part = chance.choice((0, 0, 1, 1, 2, 3))
        self.is_mirror = self.part == 1 and chance.random() < 0.8
        self.lines += [f"let {name} {chance.randrange(4)}" for name in self.constants]
        self.begin()
        for place in range(chance.randrange(1, 4)):
            self.method(f"m{place}")
        for _ in range(chance.randrange(3)):
            self.lines.insert(chance.randrange(len(self.lines) + 1), chance.choice(("", "# a remark", "#")))

    def begin(self):
        """Registers, lists, hidden amounts and the part, in some order."""
        chance = self.chance
        blocks = [[f"register {name} {chance.randrange(4)}"] for name in self.registers]
        blocks += [
            [f"list {name}", *(f"  holds {chance.randrange(5)}" for _ in range(chance.randrange(3)))] for name in self.lists
        ]
        blocks += [[f"hidden {chance.randrange(3)} {chance.randrange(4)}"] for _ in range(chance.randrange(3))]
        if self.is_mirror:
            blocks.append(["part 1", "  shows part w0"])
        elif self.part:
            names = [*self.constants, "part", *(f"w{place}" for place in range(self.part))]
            shows = range(chance.randrange(3))
            pair = [f"  shows {' '.join(expression(chance, names, [], False, 2) for _ in range(2))}" for _ in shows]
            blocks.append([f"part {self.part}", *pair])
        chance.shuffle(blocks)
        self.lines += [line for block in blocks for line in block]

    def method(self, name):
        chance, parameters = self.chance, ["x", "y", "z"][: self.chance.choice((0, 1, 1, 2, 3))]
        self.lines.append(" ".join(["method", name, *parameters]))
        names = [*self.constants, *self.registers, *parameters]
        for place in range(chance.choice((0, 0, 1, 2))):
            self.lines.append(f"  let v{place} {self.expression(names)}")
            names.append(f"v{place}")
        has_answer = chance.random() < 0.5
        if has_answer:
            self.lines.append(f"  answer {self.expression(names)}")
        for _ in range(chance.choice((0, 1, 2)) if has_answer else chance.choice((1, 1, 2, 3))):
            test = chance.choice((self.expression, self.expression, lambda _: "(reply == 1)", lambda _: "1"))
            self.lines.append(f"  allow {test([*names, 'reply'])}")
            self.lines += [f"    {self.change([*names, 'reply'])}" for _ in range(chance.choice((0, 1, 1, 2, 3)))]

    def expression(self, names, depth=3):
        return expression(self.chance, names, self.lists, True, depth)

    def change(self, names):
        chance, value = self.chance, self.expression(names, 2)
        key = f"({self.expression(names, 1)} % 4)" if self.is_mirror else self.expression(names, 2)
        forms = [f"set [{key}] {f'({value} % 9)' if self.is_mirror else value}", f"set {{{key}}} {value}", "clear"]
        if self.registers:
            forms.append(f"set {chance.choice(self.registers)} {value}")
        if self.lists:
            name = chance.choice(self.lists)
            forms += [f"append {name} {value}", f"prepend {name} {value}", f"append {name} {value}"]
            forms += [f"drop first {name}", f"drop last {name}", f"clear {name}"]
        return chance.choice(forms)


class Player:
    """A log that chance makes up: callers take turns, and most of their replies are right."""

    def __init__(self, chance, writer):
        self.chance, self.is_mirror = chance, writer.is_mirror
        self.said = Specification()
        for line, text in enumerate([*writer.lines, "log"], 2):
            self.said.take(line, text, len(text))
        self.words = chance.choice((0, 1, 2, 4)) * max(1, self.said.part) + (chance.random() < 0.05)
        self.words = 4 if writer.is_mirror and chance.random() < 0.9 else self.words
        self.state, self.lines, self.starting = State(self.said), [], []
        self.start()
        callers = chance.randrange(1, 4)
        turns = [self.caller(name) for name in range(callers)]
        for _ in range(chance.choice((2, 10, 30, 60))):
            next(chance.choice(turns))
            if chance.random() < 0.05:
                self.lines.append("# a note")
        self.header = f"vyrd 3 own {self.words} {callers}"

    def start(self):
        if self.words and self.said.part and self.chance.random() < 0.3:
            for word in sorted(self.chance.sample(range(self.words), self.chance.randrange(min(self.words, 3)))):
                value = self.chance.randrange(1, 5)
                self.starting.append(f"start {word} {value}")
                if self.is_mirror:
                    self.state.shown[word] = value

    def reply(self, method, arguments, commits):
        """A reply that is right, most times, and what it does."""
        if not commits:
            reply = answer_of(self.said, method, self.state, arguments)
            return (reply if reply != NONE and self.chance.random() < 0.95 else self.chance.randrange(3)), None
        for reply in (1, 0, self.chance.randrange(9), 2, 3, 4):
            if self.chance.random() < 0.95 and (step := step_of(self.said, method, self.state, arguments, reply)):
                return reply, step
        return self.chance.randrange(3), None

    def caller(self, name):
        """A caller, which does one thing at each turn."""
        chance = self.chance
        while True:
            method = chance.choice(self.said.methods)
            arguments = [chance.randrange(4) for _ in method.parameters]
            yield self.say(name, " ".join(["call", method.name, *map(str, arguments)]))
            commits = method.cases and (not method.answer or chance.random() < 0.5)
            reply, writes = self.reply(method, arguments, False)[0], []
            if commits:
                yield from self.commit(name, method, arguments, writes)
                reply = writes.pop()
            for _ in range(chance.choice((0, 0, 0, 1)) if not self.is_mirror and self.words else 0):
                yield self.say(name, f"write {chance.randrange(self.words + (chance.random() < 0.03) or 1)} {chance.randrange(4)}")
            yield self.say(name, f"return {reply}")

    def commit(self, name, method, arguments, replies):
        """A commit, with writes together with it where words are to show what it does."""
        chance = self.chance
        reply, step = self.reply(method, arguments, True)
        replies.append(reply)
        before = {word: self.state.shown[word] for word in range(self.words)}
        for effect in step.effects if step else ():
            self.state.do(effect)
        writes = [(word, self.state.shown[word]) for word in before if before[word] != self.state.shown[word]]
        if not self.is_mirror:
            writes = [(chance.randrange(self.words), chance.randrange(4))] if self.words and chance.random() < 0.2 else []
        if len(writes) == 0 or chance.random() < 0.02:
            yield self.say(name, "commit")
            return
        # Nobody stands between these lines: no other caller's commit may see a part of them.
        inside = chance.randrange(len(writes) + 1) if chance.random() < 0.3 else None
        self.say(name, "open")
        for place, (word, value) in enumerate(writes):
            if place == inside:
                self.say(name, "commit")
            self.say(name, f"write {word} {value}")
        if inside == len(writes):
            self.say(name, "commit")
        yield self.say(name, "close" if inside is not None else "close commit")

    def say(self, name, text):
        self.lines.append(f"{name} {text}")

    def text(self, writer):
        end = ["end"] if self.chance.random() < 0.95 else []
        return "\n".join([self.header, *writer.lines, "log", *self.starting, *self.lines, *end, ""])


def finished(chance, text):
    """The same log, most times with a return for each call that is open at its end."""
    return text if chance.random() < 0.3 else closed(text)


def closed(text):
    """A log cut where no call is open."""
    lines, is_open, last = text.split("\n"), set(), None
    begin = lines.index("log") + 1
    for place, line in enumerate(lines[begin:], begin):
        caller, _, rest = line.partition(" ")
        if rest.startswith("call"):
            is_open.add(caller)
        elif rest.startswith("return"):
            is_open.discard(caller)
        if not is_open:
            last = place
        if line == "end":
            break
    return "\n".join([*lines[: (last or begin - 1) + 1], *["end"] * (lines[last or 0] != "end"), ""])


def sample(chance):
    """A log that chance makes up."""
    writer = Writer(chance)
    while max(map(len, writer.lines)) > LONGEST:
        writer = Writer(chance)
    return finished(chance, Player(chance, writer).text(writer))


def spoilt(chance, text):
    """The same text with something that isn't right, most times."""
    lines = text.split("\n")
    for _ in range(chance.choice((1, 1, 1, 2, 3))):
        place = chance.randrange(len(lines))
        line = lines[place]
        at = chance.randrange(len(line) + 1)
        what = chance.randrange(10)
        if what == 0:
            del lines[place]
        elif what == 1:
            lines.insert(place, chance.choice(lines))
        elif what == 2:
            lines.insert(chance.randrange(len(lines)), lines.pop(place))
        elif what in (3, 4):
            lines[place] = line[:at] + line[at + 1 :]
        elif what in (5, 6, 7):
            lines[place] = line[:at] + chance.choice(" ()[]{}#0129xw,=+_A\t\r") + line[at + (what == 6) :]
        elif what == 8 and (words := line.split(" ")):
            words[chance.randrange(len(words))] = chance.choice(chance.choice(lines).split(" "))
            lines[place] = " ".join(words)
        else:
            lines[place] = line + chance.choice((" ", "x", " 1", ")", " " * 200))
        lines = lines or [""]
    return "\n".join(lines)
