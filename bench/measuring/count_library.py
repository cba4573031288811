"""Counts the instructions of one call of the library for C, as `count policy` does those of the policy.

A verdict by a block, whose grants were read once, stands beside that of the MDS by grants that it read once: by a path as a server has
it, without a slash in front, and an access or a mask, and by a path with a slash in front. The bound is 0.7 of it. A verdict by a text
reads the grants each time, so it stands beside what the MDS takes to read the same text and to judge by it once.

It builds out/c/counted over out/c/libbaybowl.a, which `tools/dev c-library` builds. The status is 0 where each verdict by a block is
within the bound.
"""

import subprocess

from . import ceph, count_mds, counting
from .count_policy import PARSES, VERDICTS
from .places import LIBRARY, ROOT, be_there

COUNTED = LIBRARY.parent / "counted"
FEW, MANY = 100, 300
BOUND = 0.7
# How a block is asked, and what the table says of it.
FORMS = {"own": "by a path as a server has it", "mask": "and by a mask", "once": "by a path with a slash in front"}
# A directory as containers have it, with a path of 93 bytes: an inode in it, and one beside it, which is denied. What the MDS takes is
# what `bench/bench count mds` counted.
VOLUMES = {"csi": 261, "beside": 278}
# The calls that there is nothing to compare with.
OTHERS = {
    "permitted, 4 grants of 8 names, plain": ("permitted", "4", "8", "plain"),
    "check, 4 grants of 8 names, plain": ("check", "4", "8", "plain"),
    "allowed": ("allowed", "1", "1", "plain"),
}


def cells():
    """The counts of the MDS for a verdict and for the reading of a text, which stand in `count_policy`, each with the two kinds of grants."""
    for verdict, parse in zip(VERDICTS, PARSES):
        for kind in ("plain", "ids"):
            yield verdict, parse, kind


def words_of(call, verdict, kind):
    return call, str(verdict.grants), str(verdict.depth), kind


def blocks():
    """The grants of each row of the first table: what it says of them, their words, and what the MDS takes."""
    for verdict, _, kind in cells():
        yield f"{verdict.grants} of {verdict.depth} names, {kind}", words_of("once", verdict, kind)[1:], getattr(verdict, kind)
    for name, mds in VOLUMES.items():
        yield name, (name, "0", "plain"), mds


def calls():
    """The words of all calls that are counted."""
    for form in FORMS:
        yield from ((form, *words) for _, words, _ in blocks())
    yield from (words_of("verdict", verdict, kind) for verdict, _, kind in cells())
    yield from OTHERS.values()


def is_within(ours, theirs):
    return ours <= BOUND * theirs


def share(ours, theirs):
    return f"{ours:,.0f} | {ours / theirs:.3f}{'' if is_within(ours, theirs) else ' ABOVE'}"


def by_block(measured=None):
    """A verdict by grants that were read once, and whether each is within the bound. Those of the MDS are counted too, where it is given."""
    print(f"| grants read once | the MDS{', counted now' if measured else ''} | {' | share | '.join(FORMS.values())} | share |\n|{'---|' * 8}")
    are_within = True
    for name, words, theirs in blocks():
        if measured:
            theirs = measured.of_one(words[0], words[1], words[2] == "ids")
        ours = [of_one(form, *words) for form in FORMS]
        are_within = are_within and all(is_within(it, theirs) for it in ours)
        print(f"| {name} | {theirs:,.0f} | {' | '.join(share(it, theirs) for it in ours)} |", flush=True)
    return are_within


def build():
    be_there(LIBRARY)
    source = ROOT / "c" / "tests" / "counted.c"
    words = ["gcc", "-std=c11", "-O2", f"-I{ROOT}/c/include", source, LIBRARY, "-o", COUNTED]
    subprocess.run([str(it) for it in words], check=True)


def counted(words, times):
    """The instructions of the whole program."""
    return counting.counted([COUNTED, *words, times])[0]


def of_one(*words):
    """The instructions of one call."""
    return (counted(words, MANY) - counted(words, FEW)) / (MANY - FEW)


def arguments(parser):
    ceph.arguments(parser)
    parser.add_argument("--mds", action="store_true", help="the first table beside Debian's ceph-mds, counted now")


def main(given):
    build()
    are_within = by_block(count_mds.Measured(given.packages, given.mirror) if given.mds else None)
    print("\n| grants read each time | a verdict by the text | the MDS, text read and one verdict | share |\n|---|---|---|---|")
    for verdict, parse, kind in cells():
        ours = of_one(*words_of("verdict", verdict, kind))
        both = getattr(verdict, kind) + getattr(parse, kind)
        print(f"| {verdict.grants} of {verdict.depth} names, {kind} | {ours:,.0f} | {both:,} | {ours / both:.3f} |", flush=True)
    for what, words in OTHERS.items():
        print(f"\n{what}: {of_one(*words):,.0f}")
    return 0 if are_within else 1
