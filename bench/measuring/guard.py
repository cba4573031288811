"""Counts small runs of what users of this server wait for, beside what bench/guard.txt says, and fails where one is above its bound.

It counts instructions, by callgrind: of a short run of each workload of bench/workloads.txt; of one verdict, one reading of a text and
one call of the library for C, as `count policy` and `count library` do; of the lines of an opening, a round with a revocation, a move and a
change of a size, beside few inodes and beside many, as `count entries` and `count holders` do; of a question on policy on such trees, in the
thread that asks, beside one that changes modes; of the first call of a pass behind a short and a long history of another; and of single
lines at their dearest, as `count dearest` does. The bound is 5 percent above. Of the workloads as they stand in bench/workloads.txt it tells the most memory that each had (VmHWM, by gdb), in kB, with a
bound of 10 percent. Where another kit built what is counted, and not one that is known to build alike, it may be five times as far
above.

A line of bench/guard.txt is a name, what is counted, how much, the bound, and the kit that built what was counted. A commit that
writes one anew gives the reason in docs/PERFORMANCE.md. The status is 0 where nothing is above its bound, and where there is no valgrind.
It takes the programs and the library as `rt ci` and `tools/dev c-library` left them.
"""

import os
import shutil
import subprocess
import sys
from concurrent.futures import ThreadPoolExecutor
from dataclasses import dataclass
from functools import partial

from . import ab, capbench, count_entries, count_holders, count_library, count_policy, counting, dearest, passes, scripted
from .places import BENCH, CAPBENCH, CAPD, CRATES

KEPT = BENCH / "guard.txt"

# How much of each workload is counted: some tens of millions of instructions.
SHORT = {"tenants": 6000, "shared": 4000, "moves": 30, "script": 1200, "questions": 7000, "serve": 1000}
SEED = 1
THREADED = ("serve",)
# The work on entries that is counted, of `count_entries`, and what it is called here: in each a line, or a round of some, is read, done
# and answered. And beside how many inodes it and a change of a size are.
VERBS = {"open": "line-open", "revoke": "lines-revoke", "rename": "line-rename"}
BESIDE = (100, 10000)
# How many clients cache the file whose size is changed.
CACHING = 10
# How many rows of another pass stand before the first call of one.
BEHIND = (1100, 16000)
# How many questions the thread that asks has in the two runs whose difference is counted.
ASKED = (1000, 5000)
INSTRUCTIONS, MEMORY = "instructions", "kB"
# What is over the count by a bound. The system counts memory by some pages at once, which is more than a tenth of a small program's.
SHARES = {INSTRUCTIONS: 0.05, MEMORY: 0.1}
AT_LEAST = {INSTRUCTIONS: 0, MEMORY: 512}
# So much further a count may go where another kit built the program, since how far compilers of two kits differ was not measured.
OTHER_KIT = 5
# Kits whose programs take the same: calls of the library for C and questions beside a writer, whose code had not changed between what
# the two built, took the same to the instruction.
ALIKE = {"rattle-kit-13b", "rattle-kit-13f"}


@dataclass(frozen=True)
class Line:
    """A line of bench/guard.txt."""

    name: str
    unit: str
    count: int
    bound: int
    kit: str

    def __str__(self):
        return f"{self.name} {self.unit} {self.count} {self.bound} {self.kit}"

    def bound_by(self, kit):
        """What this kit's program may take at most."""
        is_alike = kit == self.kit or {kit, self.kit} <= ALIKE
        return self.bound if is_alike else self.count + OTHER_KIT * (self.bound - self.count)


def workloads(counts):
    """Each workload's name, and the words that run it, with another count where one is given."""
    for name, crate, words in ab.workloads(BENCH):
        work, times, *rest = ab.said(words, SEED)
        yield name, [CRATES / crate / "out" / crate, work, counts.get(name, times), *rest]


def whole(words):
    """The instructions of a whole run of a workload."""
    return counting.counted(words)[0]


def told_peak(words):
    """The most memory that a workload had, in kB."""
    found, written = counting.told_peak(words)
    if "digest " not in written:
        sys.exit(f"{words[1]} did not end:\n{written}")
    return found / 1024


def peak(words):
    """The same, and of a workload with threads the least of three runs: where these came in another order it had up to 7 percent more."""
    return min(told_peak(words) for _ in range(3 if words[1] in THREADED else 1))


def pieces():
    """All that is counted: its name, in what, and the call that counts it."""
    for name, words in workloads(SHORT):
        yield name, INSTRUCTIONS, partial(whole, words)
    for verb, references in (("verdict", count_policy.VERDICTS), ("parse", count_policy.PARSES)):
        for work in (reference.work(verb, kind) for reference in references for kind in ("plain", "ids")):
            yield work, INSTRUCTIONS, partial(capbench.of_one, work, count_policy.FEW, count_policy.MANY)
    for words in count_library.calls():
        yield "-".join(("embed", *words)), INSTRUCTIONS, partial(count_library.of_one, *words)
    for size in BESIDE:
        for it in (it for it in count_entries.VERBS if it.verb in VERBS):
            yield f"{VERBS[it.verb]}-{size}", INSTRUCTIONS, partial(scripted.of_one, f"{it.verb}-{size}", it.few, it.many)
        yield f"size-{size}", INSTRUCTIONS, partial(count_holders.of_one, CACHING, count_holders.size, size)
    for size in BESIDE:
        work = f"explain-1-{size}"
        yield work, INSTRUCTIONS, partial(capbench.of_one_asked, work, *ASKED)
    for rows in BEHIND:
        yield f"first-call-{rows}", INSTRUCTIONS, partial(passes.first_call, rows)
    for kind in dearest.KINDS:
        yield f"line-{kind.name}", INSTRUCTIONS, partial(dearest.of_last, kind.name, kind.few)
    for name, words in workloads({}):
        yield name, MEMORY, partial(peak, words)


def kept_lines():
    lines = KEPT.read_text(encoding="utf-8").splitlines() if KEPT.exists() else []
    told = (line.split() for line in lines if not line.startswith("#"))
    return {(name, unit): Line(name, unit, int(number), int(bound), kit) for name, unit, number, bound, kit in told}


def keep(lines, order):
    heads = [line for line in KEPT.read_text(encoding="utf-8").splitlines() if line.startswith("#")] if KEPT.exists() else []
    KEPT.write_text("".join(f"{line}\n" for line in [*heads, *(lines[it] for it in order if it in lines)]), encoding="utf-8")


def this_kit():
    try:
        return subprocess.run(["rt", "version"], capture_output=True, text=True, check=True).stdout.split()[0]
    except (OSError, subprocess.CalledProcessError, IndexError):
        return "unknown"


def slack(unit, number):
    """How far the bound of a count is above it."""
    return max(int(SHARES[unit] * number), AT_LEAST[unit])


def renewed(name, unit, counted, kit):
    return Line(name, unit, counted, counted + slack(unit, counted), kit)


def judged(counted, line, kit):
    """What the table says of a count, and whether it is within its bound."""
    if line is None:
        return "NOT WRITTEN DOWN", False
    if counted > line.bound_by(kit):
        return "ABOVE", False
    return ("lower" if counted < line.count - slack(line.unit, line.count) else "yes"), True


def prepare(names):
    """Ends where what is counted was not built."""
    programs = [words[0] for _, words in workloads({})] + [CAPBENCH, CAPD]
    for program in programs:
        if not program.exists():
            sys.exit(f"bench/bench guard: no {program}: rt ci leaves it")
    if any(name.startswith("embed-") for name in names):
        count_library.build()


def counted_all(asked, jobs):
    """What was counted of each piece in turn."""
    with ThreadPoolExecutor(jobs) as pool:
        counts = [pool.submit(call) for _, _, call in asked]
        try:
            for (name, unit, _), it in zip(asked, counts):
                yield name, unit, round(it.result())
        finally:
            for it in counts:
                it.cancel()


def arguments(parser):
    parser.add_argument("names", nargs="*", metavar="NAME", help="count these, as tenants and line-open-100, and not all")
    parser.add_argument("--renew", action="store_true", help="write these down, or `all`, with new bounds")
    parser.add_argument("--jobs", type=int, default=len(os.sched_getaffinity(0)), metavar="N", help="count so many at a time (default: one on each processor)")


def choose(told):
    """The pieces that are asked for. Memory is left out where gdb cannot tell of it."""
    every = list(pieces())
    unknown = set(told.names) - {name for name, _, _ in every} - ({"all"} if told.renew else set())
    if unknown:
        sys.exit(f"bench/bench guard: nothing here is called {', '.join(sorted(unknown))}")
    if not counting.tells_peaks():
        print("bench/bench guard: there is no gdb here that may look at a program, so no memory is counted\n")
        every = [it for it in every if it[1] != MEMORY]
    is_all = not told.names or "all" in told.names
    return [it for it in every if is_all or it[0] in told.names]


def row(name, unit, counted, line, kit, verdict):
    cells = f"{line.count:,} | {counted / line.count:.3f} | {line.bound_by(kit):,}" if line else " | | "
    return f"| {name}{', kB' if unit == MEMORY else ''} | {counted:,} | {cells} | {verdict} |"


def main(told):
    if told.renew and not told.names:
        print("bench/bench guard: --renew takes the names of what is to be written down, or all", file=sys.stderr)
        return 2
    if not shutil.which("valgrind"):
        print("bench/bench guard: there is no valgrind here, so nothing is counted")
        return 0
    asked, lines, kit, faults = choose(told), kept_lines(), this_kit(), 0
    prepare([name for name, _, _ in asked])
    print("| What | Counted | Written down | Share | Bound | Within |\n|---|---|---|---|---|---|", flush=True)
    for name, unit, counted in counted_all(asked, max(1, told.jobs)):
        if told.renew:
            lines[name, unit] = renewed(name, unit, counted, kit)
        line = lines.get((name, unit))
        verdict, is_well = judged(counted, line, kit)
        faults += not is_well
        print(row(name, unit, counted, line, kit, verdict), flush=True)
    order = [(name, unit) for name, unit, _ in pieces()]
    if told.renew:
        keep(lines, order)
    strays = sorted({name for name, unit in lines if (name, unit) not in order})
    kits = sorted({line.kit for line in lines.values()} - ({kit} | (ALIKE if kit in ALIKE else set())))
    if strays:
        print(f"\nbench/guard.txt has lines of what is not counted: {', '.join(strays)}")
    if kits:
        print(f"\nThis is {kit}; counts were written down with {', '.join(kits)}, and may be further above here.")
    print(f"\n{len(asked)} counted, {faults} not within their bound")
    return 1 if faults or strays else 0
