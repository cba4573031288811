"""Tells how much memory an entry takes: by how much the peak of `capd run` grows from few of them to many.

The peak is what the system says of the whole program before it ends (VmHWM), less the text of the script, which is read whole, in three
kinds of runs of scripts, as `bench/bench write script` writes them:

- T inodes stand in the root, and nobody has one open: `lookup-T-flat 0`;
- a client has an entry on each: `want-T 0`. Each opening is a row of the history besides;
- N clients more have an entry on each too: `share-T N`. So are these openings.

What a row of the history takes is told by `want-100 N`, two rows each time, which makes no entry that stays. An entry is
what is left when its row is taken off.

It takes one to three minutes, and crates/capd/out/capd as it is, which `rt ci` leaves there.
"""

from .places import CAPD, be_there
from .scripted import peak

FEW, MANY = 10000, 60000
# How often a row of the history is made in the two runs that tell of it.
ROWS_FEW, ROWS_MANY = 20000, 200000
# How many clients more have each of 1,000 inodes open in the runs that tell of their entries.
SHARED, CLIENTS = 1000, (0, 10, 20, 30, 40, 50, 60)


def line(what, few, many, count):
    grown = (many - few) / count
    print(f"| {what} | {few // 1024:,} | {many // 1024:,} | {grown:,.0f} |", flush=True)
    return grown


def arguments(_parser):
    """It takes none."""


def main(_given):
    be_there(CAPD)
    print("| | peak of few, kB | peak of many, kB | bytes for one |\n|---|---|---|---|")
    row = line("row of the history", peak("want-100", ROWS_FEW // 2), peak("want-100", ROWS_MANY // 2), ROWS_MANY - ROWS_FEW)
    inode = line("inode without an entry, with its row", peak(f"lookup-{FEW}-flat", 0), peak(f"lookup-{MANY}-flat", 0), MANY - FEW)
    both = line("inode with an entry, with both rows", peak(f"want-{FEW}", 0), peak(f"want-{MANY}", 0), MANY - FEW)
    print(f"\nAn entry on an inode that has none: {both - inode - row:,.0f} bytes.\n")
    print("| entries | peak, kB | bytes for one more, with its row | without |\n|---|---|---|---|")
    peaks = {count: peak(f"share-{SHARED}", count) for count in CLIENTS}
    for few, many in [*zip(CLIENTS, CLIENTS[1:]), (CLIENTS[0], CLIENTS[-1])]:
        one = (peaks[many] - peaks[few]) / ((many - few) * SHARED)
        span = f"{(few + 1) * SHARED:,} to {(many + 1) * SHARED:,}"
        print(f"| {span} | {peaks[many] // 1024:,} | {one:,.0f} | {one - row:,.0f} |")
    return 0
