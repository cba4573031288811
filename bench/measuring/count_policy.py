"""Counts the instructions of one operation of the policy.

Each piece of work is run twice under callgrind, a different number of times, and the difference of the two counts is
divided by the difference of the two numbers: what the program does once falls out. Beside each count stands that of the
policy code of a CephFS MDS 16.2.15 on one thread, and whether capbench meets the bound: half of it for a verdict, a tenth
for the reading of a text. It builds crates/capbench first, by `rt run`.

The status is 0 where each cell is within its bound.
"""

from dataclasses import dataclass

from .capbench import build, of_one
from .places import CAPBENCH, be_there

FEW, MANY = 100, 300

VERDICT_BOUND = 0.5
PARSE_BOUND = 0.1


@dataclass(frozen=True)
class Reference:
    """The instructions of the MDS for one operation, for grants without ids and with them."""

    grants: int
    depth: int
    plain: int
    ids: int

    def work(self, verb, kind):
        return f"{verb}-{self.grants}-{self.depth}-{kind}"


VERDICTS = [
    Reference(1, 1, 256, 1137),
    Reference(4, 8, 731, 1759),
    Reference(16, 32, 3073, 4689),
]

PARSES = [
    Reference(1, 1, 22210, 23128),
    Reference(4, 8, 72465, 65607),
    Reference(16, 32, 694454, 523254),
]


def cell(count, reference, bound):
    share = count / reference
    verdict = "yes" if share <= bound else "no"
    return f"{count:,.0f} of {reference:,} = {share:.3f} {verdict}"


def table(verb, bound, references):
    """Prints the cells of a verb, and answers whether all are within the bound."""
    print(f"\n| {verb}, at most {bound} of the MDS | plain | ids |\n|---|---|---|")
    is_within = True
    for reference in references:
        plain, ids = (of_one(reference.work(verb, kind), FEW, MANY) for kind in ("plain", "ids"))
        is_within = is_within and plain <= bound * reference.plain and ids <= bound * reference.ids
        cells = f"{cell(plain, reference.plain, bound)} | {cell(ids, reference.ids, bound)}"
        print(f"| {reference.grants} grants, {reference.depth} names | {cells} |", flush=True)
    return is_within


def arguments(parser):
    parser.add_argument("--built", action="store_true", help="take crates/capbench/out/capbench as it is, and do not build it")


def main(given):
    if given.built:
        be_there(CAPBENCH)
    else:
        build()
    are_within = [table("verdict", VERDICT_BOUND, VERDICTS), table("parse", PARSE_BOUND, PARSES)]
    return 0 if all(are_within) else 1
