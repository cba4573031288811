"""Counts the instructions of lines of a script on inodes and on entries, beside T inodes.

Each piece of work is done in two scripts under callgrind, a different number of times, and the difference of the two counts is divided
by the difference of the two numbers, as `count policy` does: what stands there before, T inodes and mostly T entries, falls out. So a
count has the reading of the lines in it, the work, and the writing of what is answered, which has to be what the work is about.

All four T take some four minutes. `bench/bench write script` writes the script of a piece of work. It takes crates/capd/out/capd as it
is, which `rt ci` leaves there.
"""

import argparse
from dataclasses import dataclass

from .places import CAPD, be_there
from .scripted import counted, of_one

SIZES = (100, 1000, 10000, 60000)


@dataclass(frozen=True)
class Verb:
    """A piece of work, what is done once in it, and how many times it is done in the two runs."""

    verb: str
    once: str
    few: int
    many: int


VERBS = [
    Verb("open", "an opening", 100, 300),
    Verb("want", "a want and a release", 100, 300),
    Verb("revoke", "a round of six lines", 10, 30),
    Verb("release", "a release and an opening", 100, 300),
    Verb("poll", "a poll of a client with T entries", 10, 30),
    Verb("alter", "a change of a mode", 100, 300),
    Verb("rename", "a move of a directory with 100 open files", 10, 30),
]


# How many clients have opened each of a hundred inodes, beside the first, when one more does.
SHARERS = (1, 10, 30, 60)


def shared():
    print("| clients on the inode | an opening by one more |\n|---|---|")
    for count in SHARERS:
        grown = counted("share-100", count + 1) - counted("share-100", count)
        print(f"| {count + 1} | {grown / 100:,.0f} |", flush=True)


# How many open files a directory has that is moved.
FILES = (100, 1000, 10000)


def below():
    print("| open files below | a move of their directory | for each file |\n|---|---|---|")
    for count in FILES:
        one = of_one(f"carry-{count}", 2, 6)
        print(f"| {count:,} | {one:,.0f} | {one / count:,.0f} |", flush=True)


def report(sizes):
    print("| T | " + " | ".join(f"`{each.verb}-T`, {each.once}" for each in VERBS) + " |")
    print("|---|" + "---|" * len(VERBS))
    for size in sizes:
        print(f"| {size:,} |", end="", flush=True)
        for each in VERBS:
            print(f" {of_one(f'{each.verb}-{size}', each.few, each.many):,.0f} |", end="", flush=True)
        print()


# The trees, and how many times something is done in them in the two runs.
TREES = [f"{verb}-{{}}-{layout}" for verb in ("lookup", "create") for layout in ("flat", "deep")]
IN_TREES = (100, 300)


def trees():
    print("| T | " + " | ".join(f"`{tree.format('T')}`" for tree in TREES) + " |")
    print("|---|" + "---|" * len(TREES))
    for size in SIZES:
        print(f"| {size:,} |", end="", flush=True)
        for tree in TREES:
            print(f" {of_one(tree.format(size), *IN_TREES):,.0f} |", end="", flush=True)
        print()


def size(word):
    """One of the sizes that are counted."""
    if word not in map(str, SIZES):
        raise argparse.ArgumentTypeError(f"{word} is none of {', '.join(map(str, SIZES))}")
    return int(word)


def arguments(parser):
    parser.add_argument("sizes", nargs="*", type=size, metavar="T", help="beside so many inodes that a client has open (default: all four)")
    other = parser.add_mutually_exclusive_group()
    for table, what in (
        (trees, "lookups and creations in trees of so many inodes, in which none is open"),
        (shared, "an opening of an inode that 2, 11, 31 and 61 clients have open"),
        (below, "a move of a directory with 100, 1,000 and 10,000 files that are open"),
    ):
        other.add_argument(f"--{table.__name__}", dest="table", action="store_const", const=table, help=what)


def main(given):
    be_there(CAPD)
    if given.table:
        given.table()
    else:
        report(given.sizes or SIZES)
    return 0
