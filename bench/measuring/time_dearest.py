"""Tells how many seconds of the processor single lines of a script take at their dearest, each at the size that the limits allow.

Each kind makes a script of ordinary, accepted lines, and one line behind them. What that line takes is what the script takes with it,
less what it takes without it, the fastest of three runs each. It takes crates/capd/out/capd as it is, which `rt ci` leaves there.
"""

import resource
import subprocess

from .dearest import KINDS
from .lines import kinds_asked, text
from .places import CAPD, be_there

# Runs that are timed, of which the fastest is told.
TURNS = 3


def processor(lines):
    """The seconds of the processor that a script takes, the fastest of some runs."""
    given, times = text(lines).encode(), []
    for _ in range(TURNS):
        before = resource.getrusage(resource.RUSAGE_CHILDREN)
        subprocess.run([CAPD, "run"], input=given, stdout=subprocess.DEVNULL, check=True)
        after = resource.getrusage(resource.RUSAGE_CHILDREN)
        times.append(after.ru_utime + after.ru_stime - before.ru_utime - before.ru_stime)
    return min(times)


def arguments(parser):
    kinds_asked(parser, KINDS)


def main(given):
    be_there(CAPD)
    print("| Line | What it does | n | Seconds |\n|---|---|---|---|")
    for kind in given.kinds:
        before, all_lines = kind.script(kind.most)
        seconds = max(0, processor(all_lines) - processor(before))
        print(f"| `{kind.name}` | {kind.meaning} | {kind.most:,} | {seconds:.3f} |", flush=True)
    return 0
