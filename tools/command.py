"""The command line that the scripts share: their words and help, what ends them, where they read from and write to."""

import os
import re
import signal
import sys
import tempfile

# The statuses with which each script may end, beside its own. 5 and 6 mean what they mean for the program.
MISUSE = 64  # wrong words, or an input that can't be read or isn't what the script takes
UNWRITTEN = 5
NO_MEMORY = 6


class Ended(Exception):
    """What ends a script before its time: a sentence for standard error, or none, and the status."""

    def __init__(self, sentence, status=MISUSE):
        super().__init__(sentence)
        self.sentence, self.status = sentence, status


def run(main):
    """Runs a script, which gives its status. What can be foreseen is said in a sentence, and never as a traceback."""
    signal.signal(signal.SIGPIPE, signal.SIG_DFL)  # `| head` ends a script as it ends cat: quietly, with 141 in a shell
    signal.signal(signal.SIGINT, signal.SIG_DFL)
    try:
        if sys.stdout is None:
            raise Ended("standard output is closed", UNWRITTEN)
        try:
            status = main(sys.argv[1:])
        finally:
            sys.stdout.flush()
    except Ended as ended:
        status = ended.status
        if ended.sentence:
            tell(ended.sentence)
    except MemoryError:
        status = NO_MEMORY
        tell("there was no memory")
    except OSError as error:
        status = UNWRITTEN
        tell(f"this could not be written: {error.strerror}")
        # What is still kept for standard output would fail once more as Python ends, with a traceback.
        os.dup2(os.open(os.devnull, os.O_WRONLY), 1)
    sys.exit(status)


def tell(sentence):
    """Says a sentence on standard error, with nothing in it that a terminal would obey."""
    if sys.stderr is not None:
        name = os.path.basename(sys.argv[0])
        print(harmless(f"{name}: {sentence}"), file=sys.stderr, flush=True)


def harmless(text):
    """Text in which each character that isn't printable is shown by its number."""
    return "".join(letter if letter.isprintable() else f"\\x{ord(letter):02x}" for letter in text)


def parsed(words, usage, most, flags=(), numbers=(), names=()):
    """The options by name, and the other words. `--help` prints the usage and ends the script.

    A flag stands alone; after one of `numbers` there is a number, and after one of `names` a name.
    """
    options, others, left = {}, [], list(words)
    while left:
        word = left.pop(0)
        if word == "--":
            others += left
            break
        if word == "--help":
            print(usage.strip("\n"))
            raise Ended(None, 0)
        if word in flags:
            options[word] = True
        elif word in numbers:
            options[word] = number_in(left.pop(0) if left else "", f"{word} takes a number of at most 9 digits")
        elif word in names:
            if not left:
                raise Ended(f"{word} takes a name")
            options[word] = left.pop(0)
        elif word.startswith("-") and word != "-":
            raise Ended(f"there is no option {word}; --help says which there are")
        else:
            others.append(word)
    if len(others) > most:
        raise Ended(f"{others[most]} is one word too many; --help says what there is")
    return options, others


def number_in(word, wanted):
    """The number that a word is."""
    if not re.fullmatch("[0-9]{1,9}", word):
        raise Ended(wanted)
    return int(word)


def opened(name):
    """A file, or standard input if the name is `-`, to be read as bytes."""
    if name != "-":
        try:
            return open(name, "rb")
        except OSError as error:
            raise unread(name, error) from None
    if sys.stdin is None:
        raise Ended("standard input is closed")
    if sys.stdin.isatty():
        tell("reading from the terminal, up to Ctrl-D")
    return sys.stdin.buffer


def unread(name, error):
    """What ends a script that can't read its input."""
    return Ended(f"{'standard input' if name == '-' else name} can't be read: {error.strerror}")


def kept(name):
    """The same, as a file that can be read again: what comes only once is put into a temporary file.

    It isn't buffered, so that a program that is given it reads where this one has gone to.
    """
    file = opened(name)
    if name != "-" and file.seekable():
        return file.detach()
    copy = temporary()
    with open(copy.fileno(), "wb", closefd=False) as sink:
        while piece := read(file, name):
            sink.write(piece)
    return copy


def read(file, name):
    """The next bytes of an input, and none at its end."""
    try:
        return file.read(1 << 20)
    except OSError as error:
        raise unread(name, error) from None


def temporary():
    """A file without a name, which is gone with the script, and isn't buffered."""
    return tempfile.TemporaryFile(buffering=0)
