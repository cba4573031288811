"""Counts the instructions of single lines of a script at their dearest, and how these grow: how long one line may hold the server.

Each kind makes a script of ordinary, accepted lines, and one line behind them. What that line costs is what the script takes with it,
less what it takes without it, by callgrind, at one size and at twice that. It takes some minutes, and crates/capd/out/capd as it is, which
`rt ci` leaves there.
"""

from .dearest import KINDS, of_last
from .lines import kinds_asked
from .places import CAPD, be_there


def arguments(parser):
    kinds_asked(parser, KINDS)


def main(given):
    be_there(CAPD)
    print("| Line | What it does | Grows with | n | Instructions | at 2 n | times |\n|---|---|---|---|---|---|---|")
    for kind in given.kinds:
        once, twice = of_last(kind.name, kind.size), of_last(kind.name, 2 * kind.size)
        print(f"| `{kind.name}` | {kind.meaning} | {kind.grows} | {kind.size:,} | {once:,} | {twice:,} | {twice / once:.2f} |", flush=True)
    return 0
