"""A program that ends in the way that its first word says, with a log in the file of its second.

life.py finish | leave | exit | raise | raise_in_step | abort | terminate | interrupt | fork | hang FILE
"""

import os
import signal
import sys
import time
from pathlib import Path

sys.path.insert(0, str(Path(__file__).resolve().parent.parent))
from vyrd_log import Header, Log  # noqa: E402


def main(way, path):
    log = Log(Header(1, "multiset", 1, 2), path)
    first, second = log.caller(), log.caller()
    first.call("insert", 5)
    with first.step() as lines:
        lines.write(1, 5)
    with first.step() as lines:
        lines.write(0, 2)
        lines.commit()
    first.returns(True)
    second.call("lookup", 5)
    if way == "finish":
        second.returns(True)
        log.finish()
    elif way == "exit":
        sys.exit(3)
    elif way == "raise":
        raise RuntimeError("by the test")
    elif way == "raise_in_step":
        with log, second.step():
            raise RuntimeError("by the test")
    elif way == "abort":
        time.sleep(0.2)  # what a signal does to Python itself isn't taken: a tick has to come before it
        os.abort()
    elif way == "terminate":
        os.kill(os.getpid(), signal.SIGTERM)
        time.sleep(60)
    elif way == "interrupt":
        os.kill(os.getpid(), signal.SIGINT)
        time.sleep(60)
    elif way == "fork":
        if os.fork() == 0:
            sys.exit()  # what the copy keeps isn't its own
        os.wait()
    elif way == "hang":
        with second.step():
            time.sleep(60)


if __name__ == "__main__":
    if len(sys.argv) != 3:
        sys.exit("usage: life.py WAY FILE")
    main(*sys.argv[1:])
