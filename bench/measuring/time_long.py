"""Plays long scripts of which each line is as dear as its kind can be, and says how long they take and how much memory.

A script may have 16 MiB. Each kind begins with a server that is as full as it may be, and says the same line, or the same few, over and
over: until the script is full or, where a line is dear, so many times. It is played with half of these lines and with all of them, by
which one sees whether twice as many take more than twice the time. The line that begins is played alone too, and taken off. A run of
more than five minutes is ended, and the status is 1 then, or where one does not end with status 0. It takes crates/capd/out/capd as it
is, which `rt ci` leaves there.
"""

import os
import resource
import subprocess
import sys
import tempfile
from collections.abc import Callable, Iterable
from dataclasses import dataclass
from functools import partial
from itertools import chain, count, cycle, islice

from . import lines
from .lines import kinds_asked, opened, text
from .places import CAPD, be_there

MIB = 1 << 20
# The most bytes that a script may have, and the most seconds of the processor that a run may take.
LONGEST, PATIENCE = 16 * MIB, 300


sessions = partial(lines.sessions, flags="rw")


def files(number, client=1, directory=1, first=2):
    """Makes so many files, whose inodes are numbered from the first on."""
    return [f"create {client} {directory} f{ino} 644" for ino in range(first, first + number)]


# ---- the kinds: the lines that fill the server, and those that are said behind them


def lookups():
    """Looks up one of 60,000 files."""
    return sessions([1]) + files(60_000), (f"lookup 1 1 f{2 + 7919 * turn % 60_000}" for turn in count())


def names():
    """Makes files with the longest names and looks them up, until there is no room for more."""
    return sessions([1]), (f"{'lookup' if turn % 2 else 'create'} 1 1 {turn // 2:0255d}{'' if turn % 2 else ' 644'}" for turn in count())


def polls():
    """Polls for nothing of a client with 60,000 entries, to whom the last is due."""
    return sessions([1, 2]) + files(60_000) + opened(1, range(2, 60_002)) + ["open 2 60001 w"], cycle(["poll 1 0"])


def far_ends():
    """Takes from a client with 60,000 entries what it holds of the last, and returns it; it polls for each."""
    fill = [*sessions([2]), "session 1 1 1 - allow rw uid=1"]
    fill += [f"create 2 1 f{ino} 666" for ino in range(2, 60_002)] + opened(1, range(2, 60_002))
    return fill, cycle(["alter 2 60001 chmod 600", "poll 1 1", "alter 2 60001 chmod 666", "poll 1 1"])


def others_wait():
    """Makes a client stale, and not, whose thousand requests wait at a thousand files."""
    inodes = range(2, 1002)
    fill = sessions([1, 2]) + files(1000) + opened(1, inodes, "w") + [f"get 2 {ino} F" for ino in inodes]
    return fill, cycle(["stale 2", "renew 2"])


def all_wait():
    """Says what is wanted of a file at which a thousand requests of sixty clients wait."""
    fill = sessions(range(1, 64)) + files(1) + opened(1, [2], "w") + [f"get {2 + turn % 62} 2 F" for turn in range(1000)]
    return fill, cycle(["want 1 2 pFxwb", "want 1 2 pFsxcrwb"])


def closes():
    """Closes one after the other of sixty sessions that have the same thousand files open, and opens it and them again."""
    inodes, clients = range(2, 1002), range(1, 61)
    fill = sessions(clients) + files(1000) + list(chain.from_iterable(opened(client, inodes) for client in clients))
    again = ([f"close {client}", *sessions([client]), *opened(client, inodes)] for client in cycle(clients))
    return fill, chain.from_iterable(again)


def renames():
    """Moves a directory with 10,000 open files to and fro."""
    fill = sessions([1]) + ["mkdir 1 1 a 755", "mkdir 1 1 b 755", "mkdir 1 2 d 755"]
    fill += files(10_000, directory=4, first=5) + opened(1, range(5, 10_005))
    return fill, cycle(["rename 1 4 3 d", "rename 1 4 2 d"])


def regrants():
    """Grants a client with 10,000 open files one thing and another."""
    return sessions([1]) + files(10_000) + opened(1, range(2, 10_002), "rw"), cycle(["regrant 1 allow r", "regrant 1 allow rw"])


def modes():
    """Changes the mode of a file that sixty clients have open, so that all lose what they hold, or have it again."""
    clients = range(2, 62)
    fill = [*sessions([1]), *(f"session {client} {client} {client} - allow rw uid={client}" for client in clients)]
    fill += files(1) + ["alter 1 2 chmod 666"] + list(chain.from_iterable(opened(client, [2]) for client in clients))
    return fill, cycle(["alter 1 2 chmod 600", "alter 1 2 chmod 666"])


@dataclass(frozen=True)
class Kind:
    """A kind of long script: the most lines that it says behind those that fill the server, none for as many as there is room for."""

    make: Callable[[], tuple[list[str], Iterable[str]]]
    most: int | None = None

    @property
    def name(self):
        return self.make.__name__.replace("_", "-")

    def script(self):
        """The lines that fill the server, and those that are said behind them."""
        fill, lines = self.make()
        said, left = [], LONGEST - len(text(fill))
        for line in islice(lines, self.most):
            left -= len(line) + 1
            if left < 0:
                break
            said.append(line)
        return fill, said


KINDS = (
    Kind(lookups),
    Kind(names),
    Kind(polls),
    Kind(far_ends),
    Kind(others_wait, 40_000),
    Kind(all_wait),
    Kind(closes),
    Kind(renames, 2_000),
    Kind(regrants, 2_000),
    Kind(modes, 200_000),
)


def play(lines):
    """The seconds of the processor that a script takes, and the most memory that the program had, in bytes."""
    with tempfile.TemporaryFile() as source:
        source.write(text(lines).encode())
        source.seek(0)
        limit = lambda: resource.setrlimit(resource.RLIMIT_CPU, (PATIENCE, PATIENCE))
        run = subprocess.Popen([CAPD, "run"], stdin=source, stdout=subprocess.DEVNULL, preexec_fn=limit)
        _, status, used = os.wait4(run.pid, 0)
    if status:
        sys.exit(f"bench/bench time long: a run ended with status {os.waitstatus_to_exitcode(status)}")
    return used.ru_utime + used.ru_stime, used.ru_maxrss * 1024


def tell(kind):
    fill, said = kind.script()
    (empty, _), (half, _), (whole, memory) = (play(fill + said[:many]) for many in (0, len(said) // 2, len(said)))
    once, twice = half - empty, whole - empty
    each, meaning = twice / len(said) * 1e6, kind.make.__doc__.rstrip(".")
    figures = f"{len(said):,} | {once:.2f} | {twice:.2f} | {twice / once:.2f} | {each:,.1f} | {memory / MIB:,.0f}"
    print(f"| `{kind.name}` | {meaning} | {figures} |", flush=True)


def arguments(parser):
    kinds_asked(parser, KINDS)


def main(given):
    be_there(CAPD)
    print("| Lines | What they do | how many | seconds of half | of all | times | microseconds for a line | MiB |")
    print("|---|---|---|---|---|---|---|---|")
    for kind in given.kinds:
        tell(kind)
    return 0
