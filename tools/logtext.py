"""What a log's text is, line by line. Nothing here judges, and a log needs no more memory than one line of it."""

import re

import specification
from command import unread
from expressions import Refused

LONGEST = 64  # bytes of a line, without its line feed
KEPT = 256  # bytes that are read of a longer one; the others are counted
PIECE = 1 << 20
MOST_WORD = (1 << 32) - 1  # of callers, words and arguments

# The methods by subject, with the number of their arguments; those of OBSERVERS only look. See docs/LOG-FORMAT.md.
METHODS = {
    "multiset": {"insert": 1, "insert_pair": 2, "delete": 1, "lookup": 1},
    "cache": {"write": 3, "flush": 1, "evict": 1, "read": 1},
    "tree": {"insert": 2, "delete": 1, "lookup": 1},
    "buffers": {"append": 2, "append_from": 2, "cut": 2, "length": 1, "read": 1},
}
OBSERVERS = {"lookup", "read", "length"}

# The subject of version 3, whose methods stand in the specification in front of the log. Its size is how many words it has.
OWN = "own"

# How many words a structure has for each unit of its size, and beside them.
WORDS = {"multiset": (8, 0), "cache": (5, 0), "tree": (12, 2), "buffers": (8, 0), OWN: (1, 0)}

HEADER = re.compile(rf"vyrd ([12]) ({'|'.join(METHODS)}) ([1-9][0-9]{{0,3}}) ([1-9][0-9]?)")
START = re.compile("start ([0-9]+) ([0-9]+)")
ENTRY = re.compile(
    "([0-9]+) (?:(write) ([0-9]+) ([0-9]+)|(return) ([0-9]+)|(call) ([^ ]+)((?: [0-9]+)*)|(commit|open|close(?: commit)?))"
)


class Entry:
    """A line after the header that has the form of an entry: its kind is its word, and `numbers` are those after it.

    A write that a walk has come over has the execution that it belongs to, if it is in one.
    """

    __slots__ = ("line", "written", "caller", "kind", "method", "numbers", "execution")

    def __init__(self, line, written, caller, kind, method, numbers):
        self.line, self.written, self.caller = line, written, int(caller)
        self.kind, self.method, self.numbers, self.execution = kind, method, numbers, None

    @property
    def text(self):
        """The line without its caller."""
        return self.written.partition(" ")[2]

    @property
    def judges(self):
        """Whether a violation may name its line."""
        return self.kind in ("commit", "close commit", "return")

    @property
    def commits(self):
        return self.kind in ("commit", "close commit")


class Log:
    """A log in a file that can be read again and again, and the answer about it. `subject` is None without a sound header.

    In version 3 it is None without a sound specification too, and what isn't a log's own text stands up to the line `front`.
    """

    def __init__(self, file, name, answer):
        self.file, self.name, self.answer = file, name, answer
        self.specification, self.front, self.longest = None, 1, LONGEST
        first = next((text for _, text, _, _ in self.lines()), "")
        header = HEADER.fullmatch(first)
        is_sound = header and int(header[3]) <= 1024 and int(header[4]) <= 64
        self.version, self.subject, self.size = (header[1], header[2], int(header[3])) if is_sound else (None, None, 0)
        self.callers = int(header[4]) if is_sound else 0
        if sizes := specification.sizes_in(first):
            self.version, (self.size, self.callers), self.longest = "3", sizes, specification.LONGEST
            self._read_specification()

    def _read_specification(self):
        """Reads the specification up to its line `log`, even if a line of it is refused before that."""
        said, is_refused = specification.Specification(), False
        self.front = float("inf")
        for line, text, length, is_ended in self.lines():
            if line == 1:
                continue
            try:
                said.take(line, text, length)
            except Refused:
                is_refused = True
            if text == "log" and is_ended:
                self.front = line
            if self.front == line or line > specification.LINES + 2:
                break
        if said.is_whole and not is_refused:
            self.subject, self.specification = OWN, said

    @property
    def marked_line(self):
        """The line that the answer names, or None."""
        return line_named(self.answer or "")

    def lines(self):
        """All lines, as lines_of gives them."""
        self.file.seek(0)
        return lines_of(open(self.file.fileno(), "rb", closefd=False), self.name)

    def entry(self, line, text):
        """The entry on a line, or None if it has none."""
        return entry_of(line, text, self.longest) if line > self.front else None

    def is_note(self, line, text, length):
        """Whether a line says nothing, as one may in version 3 where entries stand."""
        return self.version == "3" and line > self.front and specification.is_note(text, length)

    def entries(self):
        """The lines after the header, and after the specification, that can be read as entries."""
        for line, text, _, _ in self.lines():
            if entry := self.entry(line, text):
                yield entry

    def starting(self):
        """The words and values of the starting lines, of those words that the structure has."""
        words = {}
        for line, text, length, _ in self.lines() if self.subject and self.version != "1" else ():
            if line <= self.front or self.is_note(line, text, length):
                continue
            start = START.fullmatch(text)
            if not start or len(text) > LONGEST:
                break
            if int(start[1]) < words_in(self.subject, self.size):
                words[int(start[1])] = int(start[2])
        return words


def line_named(answer):
    """The line that an answer names, or None."""
    named = re.search("at line ([0-9]+)", answer)
    return int(named[1]) if named else None


def lines_of(file, name):
    """Each line of a file from where it stands on: its number, its text, its length, and whether a line feed ends it.

    Each byte is one character of the text. A text that is shorter than the length is the line's beginning.
    """
    line = 0
    try:
        while piece := file.readline(KEPT + 1):
            line += 1
            if piece[-1:] == b"\n":
                yield line, piece[:-1].decode("latin-1"), len(piece) - 1, True
            else:
                length, is_ended = rest_of_line(file) if len(piece) > KEPT else (0, False)
                yield line, piece.decode("latin-1"), len(piece) + length, is_ended
    except OSError as error:
        raise unread(name, error) from None


def rest_of_line(file):
    """How many bytes come up to the end of a line, and whether a line feed ends it."""
    length = 0
    while piece := file.readline(PIECE):
        length += len(piece)
        if piece[-1:] == b"\n":
            return length - 1, True
    return length, False


def entry_of(line, text, longest=LONGEST):
    """The entry on a line of at most so many bytes, or None if it hasn't the form of one."""
    found = ENTRY.fullmatch(text)
    if not found or len(text) > longest:
        return None
    caller, write, word, value, returns, reply, call, method, arguments, mark = found.groups()
    if write:
        return Entry(line, text, caller, write, None, (int(word), int(value)))
    if call:
        return Entry(line, text, caller, call, method, tuple(map(int, arguments.split())))
    if returns:
        return Entry(line, text, caller, returns, None, (int(reply),))
    return Entry(line, text, caller, mark, None, ())


def words_in(subject, size):
    """How many words a structure has."""
    each, beside = WORDS[subject]
    return each * size + beside


def shown(text, length=0):
    """A text that is harmless to a terminal: what isn't printable ASCII is shown by its number. More than KEPT is cut off."""
    if length > KEPT:
        return f"{shown(text[:KEPT])} .. ({length} bytes)"
    if text.isascii() and text.isprintable():
        return text
    return "".join(letter if " " <= letter <= "~" else f"\\x{ord(letter):02x}" for letter in text)
