"""What the recipes of this folder share: their words, their threads, and how another caller comes in between.

    RECIPE.py correct [SEED]    a few threads play with a correct structure; prints the log of that run
    RECIPE.py broken            two callers, one of which comes between two steps of the other; prints the log of that run

With VYRD_SEED the threads make pauses, as `loggers/README.md` says. The status is 0, and 64 if the words are none of these.
"""

import random
import re
import sys
import threading
from pathlib import Path

sys.path.insert(0, str(Path(__file__).resolve().parents[3] / "loggers" / "python"))
from vyrd_log import Header, Log  # noqa: E402

CALLERS = 3
OPERATIONS = 100
MISUSE = 64
COUNT, BOUND, RIGHT, KEY, VALUE = 1, 2, 3, 4, 8  # where a leaf's words stand among its twelve


def leaf(number, of):
    """The word of a tree's leaf that has one entry, or none."""
    return 12 * number + of


def empty_leaves(leaves):
    """A header of a tree of leaves in a chain, with nothing in them."""
    words = {12 * leaves + 1: leaves - 1}
    for number in range(leaves - 1):
        words[leaf(number, BOUND)] = number + 2
        words[leaf(number, RIGHT)] = number + 1
    return Header(2, "tree", leaves, CALLERS, words)


def meanwhile(action):
    """Does something whole in another thread."""
    other = threading.Thread(target=action)
    other.start()
    other.join()


def together(log, play, seed):
    """Each of the callers, in a thread of its own, plays with random numbers of its own."""

    def start():
        with log.caller() as caller:
            log.start_together(CALLERS)
            draw = random.Random(64 * seed + caller.number)
            for _ in range(OPERATIONS):
                play(caller, draw)

    threads = [threading.Thread(target=start) for _ in range(CALLERS)]
    for thread in threads:
        thread.start()
    for thread in threads:
        thread.join()


def words_of(words):
    """Which run the words name, and its seed, or None if they are none of those above."""
    if words == ["broken"]:
        return "broken", None
    if words[:1] == ["correct"] and len(words) <= 2 and all(re.fullmatch("[0-9]{1,18}", word) for word in words[1:]):
        return "correct", int(words[1]) if len(words) == 2 else 7
    return None


def run(header, correct, broken):
    """Does what the program's words say: `correct(log, seed)`, or `broken(log)`."""
    name = Path(sys.argv[0]).name
    if sys.argv[1:] == ["--help"]:
        forms = __doc__.partition("\n\n")[2].replace("RECIPE.py", name)
        print(sys.modules["__main__"].__doc__, forms.rstrip("\n"), sep="\n")
        return
    chosen = words_of(sys.argv[1:])
    if not chosen:
        print(f"{name}: it takes `correct`, maybe with a seed, or `broken`; --help says more", file=sys.stderr)
        sys.exit(MISUSE)
    which, seed = chosen
    with Log(header, sys.stdout.buffer) as log:
        if which == "correct":
            correct(log, seed)
        else:
            broken(log)
