"""Tells how much memory single lines leave behind: in the history, which keeps each event and its answer, and in what the server holds.

Each kind makes a script that repeats some lines, once with few and once with many turns. What one turn leaves is by how much the
most memory that the program ever had grew (`ru_maxrss`), over the turns more. It takes crates/capd/out/capd as it is, which `rt ci`
leaves there.
"""

import os
import subprocess
import sys
import tempfile
from collections.abc import Callable
from dataclasses import dataclass

from .lines import kinds_asked, sessions
from .places import CAPD, be_there

VALUES, VALUE = 64, 4096


def values(count):
    """A file, inode 2, with so many values."""
    return ["create 1 1 f 644"] + [f"alter 1 2 setx user.{number} {'ab' * VALUE}" for number in range(count)]


# ---- the kinds: lines that come once, and those of a turn


def lookup():
    """A lookup: the row of the history alone."""
    return sessions(1) + ["create 1 1 f 644"], ["lookup 1 1 f"]


def read_values():
    """A read of 64 values of 4,096 bytes."""
    return sessions(1) + values(VALUES), ["get 1 2 X"]


def read_waiting():
    """The same, where another client may change the attributes and releases that first; its polls and the reader's."""
    turn = ["want 2 2 pXsx", "get 1 2 X", "release 2 2 Xsx", "poll 1 9", "poll 2 9"]
    return sessions(2) + values(VALUES) + ["open 2 2 r"], turn


def served():
    """A change of a size that waits until another client releases what it may cache; both are told."""
    turn = ["want 2 2 pFsxcrwb", "alter 1 2 size 5", "release 2 2 Fsxcrwb", "poll 1 9", "poll 2 9"]
    return sessions(2) + ["create 1 1 f 644", "open 2 2 r"], turn


def opened_session():
    """A session that opens with one grant and closes."""
    return [], ["session 1 1 1 - allow rw", "close 1"]


def recalled():
    """A recall of 1,000 entries, and a poll that tells of them."""
    lines = sessions(1) + [f"create 1 1 f{number} 644" for number in range(1000)]
    return lines + [f"open 1 {inode} r" for inode in range(2, 1002)], ["recall 1000", "poll 1 2000"]


@dataclass(frozen=True)
class Kind:
    make: Callable[[], tuple[list[str], list[str]]]
    few: int
    many: int

    @property
    def name(self):
        return self.make.__name__.replace("_", "-")


KINDS = [
    Kind(lookup, 150000, 450000),
    Kind(read_values, 1000, 3000),
    Kind(read_waiting, 1000, 3000),
    Kind(served, 40000, 80000),
    Kind(opened_session, 50000, 150000),
    Kind(recalled, 1000, 3000),
]


def peak(once, turn, turns):
    """The most memory, in bytes, that the program had while it played the lines. What the system tells begins with what this process
    has, so it keeps no text of them, and each kind has enough turns to be above that."""
    with tempfile.TemporaryFile() as script:
        for lines in [once, *(turn for _ in range(turns))]:
            script.writelines(f"{line}\n".encode() for line in lines)
        script.seek(0)
        run = subprocess.Popen([CAPD, "run"], stdin=script, stdout=subprocess.DEVNULL, stderr=subprocess.PIPE)
        _, status, used = os.wait4(run.pid, 0)
    if status:
        sys.exit(f"bench/bench memory lines: {run.stderr.read().decode().strip()}")
    return used.ru_maxrss * 1024


def arguments(parser):
    kinds_asked(parser, KINDS)


def main(given):
    be_there(CAPD)
    print("| Lines | What they do | peak of few, kB | peak of many, kB | bytes for one turn |\n|---|---|---|---|---|")
    for kind in given.kinds:
        once, turn = kind.make()
        few, many = (peak(once, turn, turns) for turns in (kind.few, kind.many))
        left = (many - few) / (kind.many - kind.few)
        print(f"| `{kind.name}` | {kind.make.__doc__} | {few // 1024:,} | {many // 1024:,} | {left:,.0f} |", flush=True)
    return 0
