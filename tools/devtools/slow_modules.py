"""Lists the forty modules that took longest in a crate's last check, with the seconds of each.

    (cd crates/capcore && rm -rf out && rt check --jobs 1) && tools/dev slow-modules capcore

A check writes a file for each module when it is done with it, so the time between two files is what the later one took. A function has
some twenty modules: `Lts` is the borrow checker's part of its proof, `Proof` and `Answers` are its goals. The first one has the time in
which the crates below are read. What else runs on the machine counts too. The status is 2 where no check has kept its work.
"""

import re
import sys
from itertools import pairwise

from .workspace import CRATES

SHOWN = 400


def arguments(parser):
    parser.add_argument("crate", metavar="CRATE")


def short(name):
    return re.sub(r"(\.decls)*\.oantt$", "", re.sub("Rattle-[a-z_]*-", "", name, count=1))


def main(given):
    kept = CRATES / given.crate / "out" / "incremental"
    if not kept.is_dir():
        print(f"tools/dev slow-modules: no check of {given.crate} has kept its work here", file=sys.stderr)
        return 2
    written = sorted((path.stat().st_mtime, path.name) for path in kept.rglob("*.oantt"))
    took = sorted(((after - before, short(name)) for (before, _), (after, name) in pairwise(written)), reverse=True)
    for seconds, name in took[:SHOWN]:
        print(f"{seconds:7.2f} {name}")
    return 0
