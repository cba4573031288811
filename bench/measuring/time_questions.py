"""Times questions on policy, which threads ask beside one that changes modes all the time, and the same questions under a lock
that each change takes too.

Each piece of work is run with few questions and with many, by turns, and the median of the seconds is parted among the
questions between: the start, and the tree that is made, fall out.

1, 2 and 4 threads ask, as many as there are processors. It takes crates/capbench/out/capbench as it is, which `rt ci` leaves there.
Nothing else may work on the machine.
"""

import os
import statistics
import subprocess
import sys
import time

from .capbench import command
from .places import CAPBENCH, be_there

READERS = (1, 2, 4)
WAYS = ("explain", "locked")
FEW, MANY = 100_000, 1_100_000
TURNS = 5


def seconds(work, times):
    """How long a run takes that has to answer each question with yes."""
    words, tree = command(work, times)
    begun = time.perf_counter()
    done = subprocess.run([str(word) for word in words], input=tree, capture_output=True, text=True)
    taken = time.perf_counter() - begun
    readers = int(work.split("-")[1])
    if done.returncode != 0 or done.stdout != f"sum {readers * times}\n":
        sys.exit(f"{work} {times} failed:\n{done.stdout}{done.stderr}")
    return taken


def rates(works):
    """How many questions of each piece of work are answered in a second."""
    turns = {(work, times): [] for work in works for times in (FEW, MANY)}
    for _ in range(TURNS):
        for (work, times), taken in turns.items():
            taken.append(seconds(work, times))
    middle = {key: statistics.median(taken) for key, taken in turns.items()}
    return {
        work: int(work.split("-")[1]) * (MANY - FEW) / (middle[work, MANY] - middle[work, FEW]) for work in works
    }


def arguments(parser):
    parser.add_argument("size", nargs="?", default="10000", metavar="INODES", help="on so many inodes in chains: 100, 1000, 10000 (the default) or 60000")


def main(given):
    be_there(CAPBENCH)
    size = given.size
    readers = [count for count in READERS if count <= (os.cpu_count() or 1)]
    found = rates([f"{way}-{count}-{size}" for way in WAYS for count in readers])
    print("| threads that ask | beside: questions a second | of one thread's | under the lock | of one thread's |")
    print("|---|---|---|---|---|")
    for count in readers:
        cells = []
        for way in WAYS:
            rate, one = found[f"{way}-{count}-{size}"], found[f"{way}-1-{size}"]
            cells += [f"{rate:,.0f}", f"{rate / one:.2f}"]
        print(f"| {count} | " + " | ".join(cells) + " |")
    return 0
