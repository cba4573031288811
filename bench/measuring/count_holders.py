"""Counts the instructions of lines on one file that many clients have: first a change of its size that is served at once.

Each client has the file open, wants the pin and to cache, and holds no more than that: the file lock can go where the change is
made and back without an acknowledgement, and each client is owed the new size. The line `alter 1 2 size N` is run in scripts
under callgrind, a different number of times, and the difference of the two counts is divided by the difference of the two
numbers, so all that was before falls out. Beside it stands a change of the mode of the same file, which owes nobody anything.

The second table is of an acknowledgement on a file that so many clients read and one of them comes to write. Each has to let go of
what it cached; one does, the others have not yet, so the gather stays open. The figure is a script with this line less the same
script without it.

The first table is of 1, 10, 30 and 60 clients, the second of 2, 8 and 60, and both take some two minutes; or both are of so many as are
given.

It takes crates/capd/out/capd as it is, which `rt ci` leaves there.
"""

import sys

from . import counting
from .lines import opened, sessions, text
from .places import CAPD, be_there

CLIENTS = (1, 10, 30, 60)
READERS = (2, 8, 60)
FEW, MANY = 100, 300


def caching(clients, others=0):
    """The lines by which so many clients cache the data of inode 2 and hold nothing else of it, beside so many other files."""
    lines = [*sessions(clients, "rw"), "create 1 1 f 0644"]
    for client in range(1, clients + 1):
        lines += opened(client, [2])
    for client in range(1, clients + 1):
        lines += [f"want {client} 2 pFc", f"release {client} 2 Fsr"]
    return lines + [f"create 1 1 f{other} 0644" for other in range(others)]


def size(turn):
    return f"size {turn % 10}"


def mode(turn):
    return f"chmod {'0600' if turn % 2 else '0640'}"


def counted(lines):
    """The instructions of the whole script. Each change in it was made."""
    instructions, written = counting.counted([CAPD, "run"], text(lines))
    answers = written.splitlines()
    changes = sum(line.startswith("alter") for line in lines)
    if changes and set(answers[-changes:]) != {"done"}:
        sys.exit(f"a line was not answered as it is to be:\n{written[-400:]}")
    return instructions


def of_one(clients, change, others=0):
    """The instructions of one change among those of a script."""
    before = caching(clients, others)
    few, many = (counted(before + [f"alter 1 2 {change(turn)}" for turn in range(times)]) for times in (FEW, MANY))
    return (many - few) / (MANY - FEW)


def acknowledged(clients):
    """The instructions of the line by which the last of so many readers acknowledges, where the others have not yet."""
    lines = [*sessions(clients, "rw"), "create 1 1 f 0644", *(f"open {client} 2 r" for client in range(1, clients + 1))]
    lines += ["want 1 2 pFrw", f"poll {clients} 1"]
    answered = f"ack {clients} 2 2"
    without, _ = counting.counted([CAPD, "run"], text(lines))
    instructions, written = counting.counted([CAPD, "run"], text([*lines, answered]))
    if written.splitlines()[-1] != "done":
        sys.exit(f"a line was not answered as it is to be:\n{written[-400:]}")
    return instructions - without


def arguments(parser):
    parser.add_argument("clients", nargs="*", type=int, metavar="CLIENTS")


def main(given):
    be_there(CAPD)
    print("| clients that cache the file | a change of its size | a change of its mode |\n|---|---|---|")
    for clients in given.clients or CLIENTS:
        print(f"| {clients} | {of_one(clients, size):,.0f} | {of_one(clients, mode):,.0f} |", flush=True)
    print("\n| clients that read the file | an acknowledgement |\n|---|---|")
    for clients in given.clients or READERS:
        print(f"| {clients} | {acknowledged(clients):,.0f} |", flush=True)
    return 0
