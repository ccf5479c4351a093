"""Has Dask run a command over each name of standard input, with a zero byte after each: for by_dask.

Its words are the command, and the address of a scheduler or an empty word.
"""

import os
import subprocess
import sys

from distributed import Client, LocalCluster, as_completed


def task(command, name, vyrd):
    """Runs the command. What it does is kept in a file, and only its status and what it says come back."""
    environment = {**os.environ, **({"VYRD": vyrd} if vyrd else {})}
    ran = subprocess.run([command, name], env=environment, stdin=subprocess.DEVNULL, stderr=subprocess.PIPE, check=False)
    return ran.stderr.decode(errors="replace")


def workers(scheduler):
    """Where the tasks run."""
    return scheduler or LocalCluster(n_workers=2, threads_per_worker=1, host="127.0.0.1", dashboard_address=None)


def main():
    command, scheduler = sys.argv[1:]
    names = list(map(os.fsdecode, sys.stdin.buffer.read().split(b"\0")[:-1]))
    with Client(workers(scheduler)) as client:
        tasks = [client.submit(task, command, name, os.environ.get("VYRD"), pure=False, retries=2) for name in names]
        for done in as_completed(tasks):
            said = done.result() if done.status == "finished" else f"by_dask: a task is {done.status}\n"
            print(said, end="", file=sys.stderr)


if __name__ == "__main__":
    main()
