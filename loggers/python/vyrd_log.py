"""Writes the log of a concurrent program, which `vyrd check` judges. Copy this module; it needs Python 3.8.

    with Log(Header(1, "multiset", 1, 2), "run.log") as log:
        with log.caller() as caller:  # one for each thread
            caller.call("insert", 5)
            with caller.step() as lines:
                slot.value = 5  # what the program does, and the lines that tell of it, are one step
                lines.write(1, 5)
            ...
            caller.returns(1)

The steps of all callers take place one after the other, under one lock, so the lines stand in the order in which the program
did what they tell of.

What is kept in the buffer is written every 20 milliseconds too, at exit, and before SIGHUP or SIGTERM ends the program, where
the first log is opened in the main thread and the signal had no handler. Each write ends with a whole line. So a program that
hangs, or that fails, leaves a log that `vyrd check` can read.
"""

import atexit
import collections
import os
import random
import re
import signal
import sys
import threading
import time
import weakref

__all__ = ["Caller", "Header", "Lines", "Log", "LogError"]

LINE_BYTES = 64  # the most of a line, without its line feed
OWN_LINE_BYTES = 200  # the same in a log of version 3
MOST_ARGUMENT = 2**32 - 1
MOST_VALUE = 2**63 - 1
SUBJECTS = ("multiset", "cache", "tree", "buffers")
TICK = 0.02  # seconds between two looks for what is kept


class LogError(Exception):
    """What was asked of a log and can't be done: the sentence says what and why."""


class Header:
    """The first lines of a log.

    `vyrd VERSION SUBJECT SIZE CALLERS`: the version is 1 or 2, the subject `multiset`, `cache`, `tree` or `buffers`, the size
    from 1 to 1,024, and the callers are from 1 to 64. In version 2 `start` says which words aren't 0 where the log begins, by
    their numbers; those of a value 0 are left out. Raises LogError where one is none of these.
    """

    def __init__(self, version, subject, size, callers, start=None):
        if version not in (1, 2):
            raise LogError("the version of a log is 1 or 2")
        if subject not in SUBJECTS:
            raise LogError(f"no subject of a log: {subject}")
        if not 1 <= size <= 1024:
            raise LogError("the size of a log is from 1 to 1,024")
        if not 1 <= callers <= 64:
            raise LogError("the callers of a log are from 1 to 64")
        if start and version != 2:
            raise LogError("words at the start are of version 2")
        self._set(f"vyrd {version} {subject} {size} {callers}\n" + _starting(start), callers)

    @classmethod
    def text(cls, lines, callers):
        """Lines for the log to begin with as they are, for a header that this class doesn't know.

        `callers` is how many handles the log hands out at a time, from 1 on. Raises LogError where there are no lines or no
        callers.
        """
        if not lines:
            raise LogError("a log has a header")
        if callers < 1:
            raise LogError("the callers of a log are from 1 on")
        header = cls.__new__(cls)
        header._set(lines if lines.endswith("\n") else lines + "\n", callers)
        return header

    @classmethod
    def own(cls, specification, start=None):
        """A log of version 3, with a specification of your own in front of it.

        It is the text of a file `.spec`, from the line `vyrd 3 own WORDS CALLERS` to the line `log`. There are up to 65,536
        words, and from 1 to 256 callers. `start` is as above. Raises LogError where the first line or the last one is another;
        what stands between them is for `vyrd check` to judge.
        """
        text = specification if specification.endswith("\n") else specification + "\n"
        first = re.fullmatch("vyrd 3 own (0|[1-9][0-9]{0,4}) ([1-9][0-9]{0,2})", text.partition("\n")[0])
        if "\r\n" in text and not (first and text.endswith("\nlog\n")):
            raise LogError("a line of the specification ends with a carriage return: lines end with a line feed alone")
        if not first or int(first[1]) > 65536 or int(first[2]) > 256:
            begin = "a specification begins with the line `vyrd 3 own WORDS CALLERS`"
            raise LogError(begin + ", with up to 65,536 words and from 1 to 256 callers")
        if not text.endswith("\nlog\n"):
            raise LogError("a specification ends with the line `log`")
        header = cls.__new__(cls)
        header._set(text + _starting(start), int(first[2]), OWN_LINE_BYTES)
        return header

    @classmethod
    def own_file(cls, path, start=None):
        """The same, with the file's path. Raises OSError where it can't be read, and LogError where it isn't UTF-8."""
        with open(path, encoding="utf-8", newline="") as file:
            try:
                specification = file.read()
            except UnicodeDecodeError:
                raise LogError(f"can't read {path}: it isn't UTF-8") from None
        return cls.own(specification, start)

    def _set(self, lines, callers, line_bytes=LINE_BYTES):
        self.lines = lines
        self.callers = callers
        self._line_bytes = line_bytes


class Log:
    """A log that is being written. Its methods may be called from any thread.

    `to` is the path of a file, which is made anew, or a binary file that is open, as `sys.stdout.buffer`, and stays open.
    With a `seed`, callers yield or sleep for a moment before some of their steps, by numbers that the seed and their own
    number give; without one the variable VYRD_SEED is the seed, where it is set. `buffer` is how many bytes are kept before
    they are written. Where `watched` is false, nothing is written by itself otherwise.

    In a `with` statement the log is finished where the block ends, and closed without `end` where it raises.
    Raises LogError where VYRD_SEED is no number below 2^64, and OSError where the file can't be opened.
    """

    def __init__(self, header, to, *, seed=None, buffer=65536, watched=True):
        self._seed = _seed_outside() if seed is None else seed
        self._order = threading.Lock()  # held for a step
        self._owner = None  # the thread whose step it is
        self._finished = False
        self._hands = threading.Condition()
        self._line_bytes = header._line_bytes
        self._taken = [False] * header.callers
        self._lost = 0  # taken by handles that were given back inside a call
        self._in_call = set()  # numbers of callers; each is changed in steps
        self._waiting = 0
        self._meetings = 0
        self._sink = _Sink(to, buffer)
        self._sink.append(header.lines)
        if watched:
            _watch(self._sink)

    def caller(self):
        """A handle for a thread, with the least number that is free.

        Raises LogError where all of the header's callers are handed out.
        """
        with self._hands:
            if all(self._taken):
                given_back = f" (given back inside a call: {self._lost})" if self._lost else ""
                raise LogError(f"no caller is free: all {len(self._taken)} of the header are handed out{given_back}")
            number = self._taken.index(False)
            self._taken[number] = True
        return Caller(self, number)

    def start_together(self, threads):
        """Waits until `threads` threads are here, and lets them all go: a start barrier."""
        with self._hands:
            meeting = self._meetings
            self._waiting += 1
            if self._waiting >= threads:
                self._waiting = 0
                self._meetings += 1
                self._hands.notify_all()
            self._hands.wait_for(lambda: self._meetings != meeting)

    def flush(self):
        """Writes what is kept, and stays open. Raises OSError where a write has failed."""
        self._sink.flush(raising=True)

    def finish(self):
        """Writes `end` and what is kept: once, when all calls have returned. The log takes no step after it.

        Raises LogError where it was finished or closed before, and OSError where a write has failed.
        """
        with self._order:
            if self._finished:
                raise LogError("a log is finished twice")
            self._finished = True
            self._sink.append("end\n")
        self._sink.close(raising=True)

    def close(self):
        """Writes what is kept, and no `end`: a log without one says that the run wasn't finished."""
        with self._order:
            self._finished = True
        self._sink.close(raising=False)

    def __enter__(self):
        return self

    def __exit__(self, kind, value, trace):
        if kind is None:
            self.finish()
        else:
            # Not under the order: another thread may hang in its step.
            self._sink.flush()


class Caller:
    """One caller of a log, for one thread at a time.

    Its number is given back by `give_back`, or where its `with` statement ends, and may then be that of another thread; so
    give it back when its last call has returned. Inside a call its number is kept, so that no other thread is blamed.
    """

    def __init__(self, log, number):
        self._log = log
        self._lines = Lines(number, log._line_bytes, log._in_call)
        self._step = _Step(log, number, self._lines)
        self.number = number  # from 0 on, and below the header's callers

    def step(self):
        """`with caller.step() as lines:` has the action and its lines in its block.

        No step of another caller takes place meanwhile, so put no more than one change into it, and nothing that waits. What
        the block raises is passed on, and the lines that it has added stay. Raises LogError inside another step of this
        thread, and after the log is finished.
        """
        return self._step

    def call(self, method, *arguments):
        """A call, in a step of its own, before the method does anything."""
        with self._step as lines:
            lines.call(method, *arguments)

    def returns(self, reply):
        """A return, in a step of its own, after the method has done all."""
        with self._step as lines:
            lines.returns(reply)

    def commit(self):
        """A commit in a step of its own, for an operation that takes effect without a change."""
        with self._step as lines:
            lines.commit()

    def give_back(self):
        """Gives the number back, except inside a call. The handle takes no step after it."""
        with self._log._hands:
            if self._step.given_back:
                return
            self._step.given_back = True
            if self.number in self._log._in_call:
                self._log._lost += 1
            else:
                self._log._taken[self.number] = False

    def __enter__(self):
        return self

    def __exit__(self, kind, value, trace):
        self.give_back()


class Lines:
    """The lines of one step. They stand in the log one after the other.

    Numbers are integers from 0 on, and True is 1. One that a log can't hold raises LogError, and so does a line that would have
    more than 64 bytes, or in version 3 more than 200; that line isn't written. All else is for `vyrd check` to judge.
    """

    def __init__(self, caller, line_bytes, in_call):
        self._caller = caller
        self._begin = f"{caller} "
        self._most = line_bytes
        self._in_call = in_call  # the log's
        self._text = []

    def call(self, method, *arguments):
        """`call METHOD ARGUMENTS`: arguments are below 2^32.

        In the step of an action whose outcome says which method it was, or its arguments, call and return may stand side by
        side, and lines of several calls too.
        """
        self.entry(" ".join(["call", method, *(_number("an argument", argument, MOST_ARGUMENT) for argument in arguments)]))

    def returns(self, reply):
        """`return REPLY`: a reply is below 2^64, in version 3 below 2^64 - 1."""
        self.entry("return " + _number("a reply", reply, 2**64 - (2 if self._most == OWN_LINE_BYTES else 1)))

    def write(self, word, value):
        """`write WORD VALUE`: the word is one of the subject's, and the value below 2^63."""
        self.entry(f"write {_number('a word', word, MOST_ARGUMENT)} {_number('a value', value, MOST_VALUE)}")

    def commit(self):
        """`commit`: the operation takes effect here."""
        self.entry("commit")

    def open(self):
        """`open`: writes that take effect together begin."""
        self.entry("open")

    def close(self):
        """`close`: they end."""
        self.entry("close")

    def close_commit(self):
        """`close commit`: they end, and the operation takes effect with them."""
        self.entry("close commit")

    def observed(self, method, *arguments, reply):
        """An observer whole, its call and its return side by side: it is judged at this one place."""
        self.call(method, *arguments)
        self.returns(reply)

    def note(self, words):
        """`# WORDS`, in a log of version 3: it says nothing to `vyrd check`.

        Raises LogError in a log of another version, and where the words have a line feed.
        """
        if self._most != OWN_LINE_BYTES:
            raise LogError("notes are of version 3")
        if "\n" in words:
            raise LogError("a note has one line")
        self._add(f"# {words}")

    def here(self):
        """A note of the place in the source that calls it, as `# queue.py:61`."""
        frame = sys._getframe(1)
        self.note(f"{os.path.basename(frame.f_code.co_filename)}:{frame.f_lineno}")

    def entry(self, words):
        """An entry as it is, without the caller's number: for a form that this class doesn't know."""
        self._add(self._begin + words)
        if words.startswith("call "):
            self._in_call.add(self._caller)
        elif words.startswith("return"):
            self._in_call.discard(self._caller)

    def helping(self, caller):
        """The lines of another caller, whose operation this step completes. `caller` is its number."""
        lines = Lines(caller, self._most, self._in_call)
        lines._text = self._text
        return lines

    def _add(self, line):
        if (len(line) if line.isascii() else len(line.encode())) > self._most:
            raise LogError(f"a line of a log has more than {self._most} bytes: {line}")
        self._text.append(line + "\n")


class _Step:
    """What `with caller.step()` enters and leaves."""

    def __init__(self, log, number, lines):
        self._log = log
        self._lines = lines
        self._draw = None if log._seed is None else random.Random(f"{log._seed} {number}")
        self.given_back = False

    def __enter__(self):
        log = self._log
        if self._draw is not None:
            self._pause()
        me = threading.get_ident()
        if log._owner == me:
            raise LogError("a step inside a step of the same thread")
        log._order.acquire()
        if log._finished or self.given_back:
            log._order.release()
            raise LogError("a step of a caller that is given back" if self.given_back else "a step of a log that is finished")
        log._owner = me
        return self._lines

    def __exit__(self, kind, value, trace):
        log = self._log
        text = self._lines._text
        try:
            log._sink.append("".join(text))
        finally:
            text.clear()
            log._owner = None
            log._order.release()

    def _pause(self):
        drawn = self._draw.randrange(256)
        if drawn == 0:
            time.sleep(self._draw.random() / 10000)
        elif drawn % 8 == 0:
            time.sleep(0)


class _Sink:
    """The bytes of a log on their way to a file. What it keeps ends with a whole line, and so does each write."""

    def __init__(self, to, capacity):
        self._file = None
        self._owned = isinstance(to, (str, bytes, os.PathLike))
        self._file = open(to, "wb", buffering=0) if self._owned else to
        self._process = os.getpid()
        self._lock = threading.Lock()  # held for a write; a deque needs none
        self._kept = collections.deque()
        self._size = 0
        self._capacity = capacity
        self._error = None

    def append(self, lines):
        """Under the order of the log."""
        self._kept.append(lines)
        self._size += len(lines)
        if self._size >= self._capacity:
            self._size = 0
            self.flush()

    def flush(self, raising=False):
        if os.getpid() != self._process:
            return  # a forked process has a copy of what its parent keeps, and leaves it to the parent
        with self._lock:
            kept = self._kept
            self._put("".join([kept.popleft() for _ in range(len(kept))]).encode())
            if raising and self._error:
                raise self._error

    def close(self, raising):
        try:
            self.flush(raising)
        finally:
            _SINKS.discard(self)
            if self._owned:
                self._file.close()

    def __del__(self):
        if self._file and not self._file.closed:
            self.close(raising=False)

    def _put(self, data):
        if not data or self._error:
            return
        try:
            rest = memoryview(data)
            while rest:
                rest = rest[self._file.write(rest) or 0 :]
            self._file.flush()
        except (OSError, ValueError) as error:  # ValueError: somebody else has closed the file
            self._error = error


_SINKS = weakref.WeakSet()
_BEGIN = threading.Lock()
_watching = False


def _watch(sink):
    """Writes what the sink keeps, from one thread for all logs, and where the program ends."""
    global _watching
    with _BEGIN:
        _SINKS.add(sink)
        if _watching:
            return
        _watching = True
    atexit.register(_flush_all)
    came = []
    if threading.current_thread() is threading.main_thread():
        _take_signals(came)
    threading.Thread(target=_flush_often, args=(came,), name="vyrd_log", daemon=True).start()


def _take_signals(came):
    for name in ("SIGHUP", "SIGTERM"):
        number = getattr(signal, name, None)
        if number is not None and signal.getsignal(number) is signal.SIG_DFL:
            signal.signal(number, lambda number, frame: _on_signal(came, number))


def _on_signal(came, number):
    # It may interrupt a thread that holds the lock of a log, so it leaves the writing to the thread below.
    signal.signal(number, signal.SIG_DFL)
    came.append(number)


def _flush_often(came):
    while True:
        time.sleep(TICK)
        numbers = came[:]
        _flush_all()
        for number in numbers:
            os.kill(os.getpid(), number)


def _flush_all():
    with _BEGIN:
        sinks = list(_SINKS)
    for sink in sinks:
        sink.flush()


def _starting(start):
    words = sorted((start or {}).items())
    return "".join(f"start {word} {value}\n" for word, value in words if value != 0)


def _number(what, value, most):
    if not 0 <= value <= most:
        raise LogError(f"{what} is from 0 to {most}, and not {value}")
    return f"{value:d}"


def _seed_outside():
    text = os.environ.get("VYRD_SEED")
    if text is None:
        return None
    if not (text.isascii() and text.isdigit() and len(text) <= 20 and int(text) < 2**64):
        raise LogError("VYRD_SEED isn't a number below 2^64")
    return int(text)
