"""Counts the instructions of a verdict of a real MDS, as `count library` does those of the library: the same grants, the same question,
the same way of counting. The program is Debian's ceph-mds of Ceph 16.2.15.

It takes apt-get, dpkg, g++ and valgrind, and 23 MB from Debian's mirror the first time; and out/c/libbaybowl.a, which
`tools/dev c-library` builds.
"""

import os
import re
import subprocess
import sys

from . import ceph
from .places import BENCH, LIBRARY, ROOT, be_there

OUT = ROOT / "out" / "mds"
# How many grants, of how many names; or a directory as containers have it, with an inode in it, and with one beside it.
CELLS = [(1, 1), (4, 8), (16, 32), ("csi", 0), ("beside", 0)]
FEW, MANY = 100, 300


class Measured:
    """The program, with the library in its process, so that both are asked in one."""

    def __init__(self, packages, mirror):
        be_there(LIBRARY)
        program = ceph.Program(ceph.RELEASES[16], packages)
        program.fetch(mirror)
        made = OUT / "mds.so"
        OUT.mkdir(parents=True, exist_ok=True)
        words = ["g++", "-std=c++17", "-D_GNU_SOURCE", "-O2", "-Wall", "-Wextra", "-shared", "-fPIC", f"-I{ROOT}/c/include"]
        ceph.done([*words, BENCH / "mds.cc", LIBRARY, "-o", made, "-ldl"])
        self.program = [*map(str, program.words(made))]

    def run(self, words, **work):
        """Runs words before the program, with its preloaded main."""
        return subprocess.run([*words, *self.program], env={**os.environ, **work}, stdout=subprocess.PIPE, stderr=subprocess.PIPE, text=True)

    def counted(self, grants, depth, has_ids, times):
        """The instructions of the whole program."""
        work = f"{grants} {depth} {int(has_ids)} {times}"
        done = self.run(["valgrind", "--tool=callgrind", f"--callgrind-out-file={OUT}/callgrind"], MDS_WORK=work)
        found = re.search(r"Collected : (\d+)", done.stderr)
        if done.returncode != 0 or found is None or done.stdout != f"allowed {0 if grants == 'beside' else times}\n":
            sys.exit(f"{work} failed with status {done.returncode}:\n{done.stdout}{done.stderr}")
        return int(found.group(1))

    def of_one(self, grants, depth, has_ids):
        return (self.counted(grants, depth, has_ids, MANY) - self.counted(grants, depth, has_ids, FEW)) / (MANY - FEW)

    def timed(self, grants, depth, has_ids):
        """Nanoseconds of one verdict of both, and the share."""
        done = self.run([], MDS_TIME=f"{grants} {depth} {int(has_ids)} 1000000")
        if done.returncode != 0:
            sys.exit(f"failed with status {done.returncode}:\n{done.stdout}{done.stderr}")
        mds, ours = map(float, done.stdout.split())
        return f"{mds:.1f} | {ours:.1f} | {ours / mds:.2f}"


def ask_library(given):
    """Asks random questions of both, and tells the differences by their numbers."""
    done = Measured(given.packages, given.mirror).run([], MDS_ASK=f"{given.seed} {given.questions}")
    print(done.stdout + done.stderr, end="")
    return done.returncode


def arguments(parser):
    ceph.arguments(parser)
    parser.add_argument("--seconds", action="store_true", help="the time of a verdict of both, in one process")


def main(given):
    measured = Measured(given.packages, given.mirror)
    cells = [(grants, depth, has_ids) for grants, depth in CELLS for has_ids in (False, True)]
    if given.seconds:
        print("| grants | a verdict of ceph-mds, ns | of the library, ns | share |\n|---|---|---|---|")
    else:
        print("| grants | a verdict of ceph-mds |\n|---|---|")
    for cell in cells:
        name = cell[0] if cell[1] == 0 else f"{cell[0]} of {cell[1]} names"
        print(f"| {name}, {'ids' if cell[2] else 'plain'} | {measured.timed(*cell) if given.seconds else f'{measured.of_one(*cell):,.0f}'} |", flush=True)
    return 0
