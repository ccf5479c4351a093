"""What a step costs: nanoseconds of each step and its line, with the log and without it.

overhead.py THREADS STEPS
"""

import os
import sys
import threading
import time
from pathlib import Path

sys.path.insert(0, str(Path(__file__).resolve().parent.parent))
from vyrd_log import Header, Log  # noqa: E402

word = [0]  # a store to it is a change of the program


def nanoseconds_of_a_step(threads, steps, body):
    begin = time.perf_counter_ns()
    all_threads = [threading.Thread(target=body) for _ in range(threads)]
    for thread in all_threads:
        thread.start()
    for thread in all_threads:
        thread.join()
    return (time.perf_counter_ns() - begin) / (threads * steps)


def main(threads, steps):
    def plain():
        for m in range(steps):
            word[0] = m

    def logged():
        with log.caller() as caller:
            for m in range(steps):
                with caller.step() as lines:
                    word[0] = m
                    lines.write(1, m)

    without = nanoseconds_of_a_step(threads, steps, plain)
    with Log(Header(1, "multiset", 1, threads), os.devnull) as log:
        with_log = nanoseconds_of_a_step(threads, steps, logged)
    print(f"Python, {threads} threads: {without:.0f} ns a step without the log, {with_log:.0f} ns with it")


if __name__ == "__main__":
    if len(sys.argv) != 3:
        sys.exit("usage: overhead.py THREADS STEPS")
    main(int(sys.argv[1]), int(sys.argv[2]))
