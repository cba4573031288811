"""The program that is measured: how it is built, what it is given to read, and how its instructions are counted.

A piece of work is named as `verdict-4-8-ids` or `explain-1-100`. The first word of it is the program's, and what follows says what it
reads: so many grants on paths of so many names, for any user or with ids; or a tree of so many directories in chains.
"""

import subprocess
import sys

from . import counting, scripted
from .places import CAPBENCH

# What each grant has besides its path.
IDS = {"plain": "", "ids": " uid=1000 gids=1000,1001"}


def build():
    done = subprocess.run(
        ["rt", "run", "--", "shared", "300", "7"],
        cwd=CAPBENCH.parent.parent,
        stdout=subprocess.PIPE,
        stderr=subprocess.STDOUT,
        text=True,
    )
    if done.returncode != 0:
        sys.exit(f"capbench does not build:\n{done.stdout}")


def grants(count, depth, kind):
    """The text of grants on paths that differ in their last name; that of the last is the path that is asked for."""
    folder = "".join(f"/p{place}" for place in range(depth - 1))
    names = [f"x{number}" for number in range(count - 1)] + [f"p{depth - 1}"]
    return ", ".join(f"allow rw path={folder}/{name}{IDS[kind]}" for name in names)


def command(work, times):
    """The words by which a piece of work is done so many times, and the text that is read."""
    match work.split("-"):
        case [("verdict" | "parse") as verb, count, depth, kind]:
            return [CAPBENCH, verb, times], grants(int(count), int(depth), kind)
        case [way, readers, size]:
            lines = "\n".join(line for line, _ in scripted.deep(int(size)))
            return [CAPBENCH, way, readers, size, times], lines
    sys.exit(f"nothing is called {work}")


def counted(work, times):
    """The instructions of the whole program."""
    return counting.counted(*command(work, times))[0]


def of_one(work, few, many):
    """The instructions of one operation: the difference of two whole counts, parted among those that are between."""
    return (counted(work, many) - counted(work, few)) / (many - few)


def asked(work, times):
    """The instructions of the one thread that asks in a work such as explain-1-100, and asks nothing else. What the other thread does
    meanwhile differs from run to run."""
    found, written = counting.counted_last(*command(work, times))
    if written != f"sum {times}\n":
        sys.exit(f"{work} {times} was not always answered with yes:\n{written}")
    return found


def of_one_asked(work, few, many):
    """The instructions of one question."""
    return (asked(work, many) - asked(work, few)) / (many - few)
