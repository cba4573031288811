"""Runs the gate, and tells what each crate's proof, tests, edits and programs took of the processor, and which lane took longest.

It runs `rt ci`, or other words that are given in its place; what these print and their status stay as they are. What a run took goes to
standard error. What that is made of is kept in out/gate_time, a line for each check.

A lane is a proof, or the tests, the edits or the building of a program, behind all that it waits for: a proof waits for those of the
crates below, tests for the same, edits for the crate's proof and tests, and a program for its proof.

`rt ci` prints no times. So this looks at the processes below it four times a second: which `rattle` works on which crate, for its
proof, its tests, an edit, or to build a program, and how much of the processor it and all below it had. What a process had after
the last look before it ended is not seen, and stands with `rt` itself and what it runs in the line behind the table.
"""

import argparse
import os
import resource
import subprocess
import sys
import time
from collections import defaultdict
from dataclasses import dataclass
from itertools import pairwise
from pathlib import Path

from .workspace import CRATES, ROOT, needs

KEPT = ROOT / "out" / "gate_time"
PAUSE = 0.25
TICKS = os.sysconf("SC_CLK_TCK")
KINDS = ("proof", "tests", "edits", "built")
# How a program is built, and what the page calls that; the command c-library builds the library for C, and proves it once more with that.
BUILDING = {"llvm": "by LLVM", "rattle": "by Rattle's own compiler", "linked": "linked", "library": "the library for C with its proof"}
# What LLVM's compiler took within the check of a crate's tests.
COMPILED = "compiled"
# The proof that tells how fast a machine is, and its seconds of the processor in the run by which the limit was set. It stands at the
# bottom, and its sources change least. (132 before it had the map from numbers, and 175 while it read texts of caps too: docs/GATE.md.)
YARDSTICK, SECONDS_THEN = "capbits", 167


@dataclass(frozen=True)
class Check:
    """A process of the gate: its crate, what it was for, when it began and ended since the gate began, and its processor time."""

    crate: str
    kind: str
    begin: float
    end: float
    spent: float

    @property
    def column(self):
        """Where the check stands in the table."""
        return "built" if self.kind in BUILDING else self.kind

    @property
    def clock(self):
        return self.end - self.begin


# What the system tells of a process.


def read(pid, file):
    """A file of a process, or nothing where it has ended."""
    try:
        return Path(f"/proc/{pid}/{file}").read_bytes()
    except OSError:
        return b""


def numbers(pid):
    """When a process began, in seconds since the machine did, and its processor time with that of its children that have ended."""
    told = read(pid, "stat").rpartition(b")")[2].split()
    return (int(told[19]) / TICKS, sum(map(int, told[11:15])) / TICKS) if told else (0, 0)


def children(pid):
    try:
        threads = os.listdir(f"/proc/{pid}/task")
    except OSError:
        return []
    return [int(child) for thread in threads for child in read(pid, f"task/{thread}/children").split()]


def spent(pid):
    """The processor time of a process and of all below it."""
    return numbers(pid)[1] + sum(map(spent, children(pid)))


def task_of(pid):
    """The crate that a process works on, and what for, if it is a check or a build."""
    words = read(pid, "cmdline").decode(errors="replace").split("\0")
    name = os.path.basename(words[0])
    try:
        folder = os.path.basename(os.readlink(f"/proc/{pid}/cwd"))
    except OSError:
        return None
    if name == "rattle-link":
        return folder, "tests" if f"out/{folder}_tests" in words else "linked"
    if name != "rattle" or words[1] not in ("check", "build") or "--crate-name" not in words:
        return None
    crate = words[words.index("--crate-name") + 1]
    if folder.startswith("rt-edit-"):
        return crate, "edits"
    if "--test" in words:
        return crate, "tests"
    if "--toolchain" not in words:
        return crate, "proof"
    if "staticlib" in words:
        return crate, "library"
    return crate, "rattle" if ("--backend", "rattle") in pairwise(words) else "llvm"


def is_compiler(pid):
    return os.path.basename(read(pid, "cmdline").split(b"\0")[0]) == b"clang"


def working(pid):
    """The checks and builds below a process, each by its number and its beginning, with its processor time up to now."""
    task, below = task_of(pid), children(pid)
    if not task:
        return {at: it for child in below for at, it in working(child).items()}
    crate, kind = task
    found = {pid: task}
    if kind == "tests":
        found.update({child: (crate, COMPILED) for child in below if is_compiler(child)})
    began = {at: numbers(at)[0] for at in found}
    return {(at, began[at]): (*it, spent(at)) for at, it in found.items() if began[at]}


# The watch.


def watch(pid, has_ended, keep):
    """Looks at the gate until it has ended, and hands each check that ended to `keep`. Answers the gate's seconds by the clock."""
    began, running = numbers(pid)[0], {}
    while True:
        is_last = has_ended()
        now, seen = time.clock_gettime(time.CLOCK_BOOTTIME), working(pid)
        for at in [at for at in running if at not in seen]:
            keep(Check(*running[at][:2], at[1] - began, now - began, running.pop(at)[2]))
        for at, task in seen.items():
            running[at] = (*task[:2], max(task[2], running.get(at, task)[2]))
        if is_last:
            return now - began


def write(line):
    with KEPT.open("a", encoding="utf-8") as kept:
        kept.write(line + "\n")


def keep(check):
    write(f"{check.crate} {check.kind} {check.begin:.1f} {check.end:.1f} {check.spent:.2f}")


def run(words):
    """Runs the gate below this, and answers its status."""
    try:
        gate = subprocess.Popen(words, cwd=ROOT)
    except OSError as fault:
        sys.exit(f"tools/dev gate-time: {words[0]} does not start: {fault.strerror}")

    def has_ended():
        try:
            gate.wait(PAUSE)
        except subprocess.TimeoutExpired:
            return False
        except KeyboardInterrupt:
            # (the gate has heard it too)
            return False
        return True

    clock = watch(gate.pid, has_ended, keep)
    of_all = resource.getrusage(resource.RUSAGE_CHILDREN)
    write(f"- all 0 {clock:.1f} {of_all.ru_utime + of_all.ru_stime:.2f}")
    return gate.returncode if gate.returncode >= 0 else 128 - gate.returncode


def look_at(pid):
    """Watches a gate that another started."""
    if not read(pid, "cmdline"):
        sys.exit(f"tools/dev gate-time: no process {pid}")
    last = [0]

    def has_ended():
        time.sleep(PAUSE)
        last[0] = max(last[0], spent(pid))
        return not read(pid, "cmdline")

    write(f"- all 0 {watch(pid, has_ended, keep):.1f} {last[0]:.2f}")


# The tables.


def kept_checks():
    """The checks of the last run, and its line of all."""
    checks, of_all = [], None
    if not KEPT.exists():
        sys.exit("tools/dev gate-time: no run was looked at here yet")
    for line in KEPT.read_text(encoding="utf-8").splitlines():
        crate, kind, *told = line.split()
        check = Check(crate, kind, *map(float, told))
        if kind == "all":
            of_all = check
        else:
            checks.append(check)
    return checks, of_all


def by_task(checks):
    """All checks of one crate and one column as one."""
    found = defaultdict(list)
    for it in checks:
        found[it.crate, it.column].append(it)
    return {
        task: Check(*task, min(it.begin for it in its), max(it.end for it in its), sum(it.spent for it in its))
        for task, its in found.items()
    }


def edits_of(crate):
    return sorted(it.stem for it in (CRATES / crate / "must-fail").glob("*.edit"))


def waits_for(task, tasks, below):
    """What had to end before a task began."""
    crate, kind = task
    of_crate = {"edits": ("proof", "tests"), "built": ("proof",)}.get(kind)
    waits = [(crate, it) for it in of_crate] if of_crate else [(it, "proof") for it in below.get(crate, [])]
    return [it for it in waits if it in tasks]


def last_lane(tasks, below):
    """The lane that ended last: the task that did, before it the one of those that it waited for that ended last, and so on."""
    chain, waits = [], list(tasks)
    while waits:
        at = max(waits, key=lambda it: tasks[it].end)
        chain.insert(0, at)
        waits = waits_for(at, tasks, below)
    return chain


def longest_lane(tasks, below):
    """The lane whose tasks took the most together by the clock, whenever each began."""
    lanes = {}

    def took(task):
        if task not in lanes:
            before = max((took(it) for it in waits_for(task, tasks, below)), default=(0, []))
            lanes[task] = before[0] + tasks[task].clock, [*before[1], task]
        return lanes[task]

    return max(map(took, tasks))[1]


def minutes(seconds):
    return f"{seconds / 60:.1f}"


def table(tasks):
    """The seconds of the processor, and of edits in brackets how many there are."""

    def row(name, cells, crates, end):
        told = [f"{cells[it]:,.0f}" if it in cells else "-" for it in KINDS]
        if "edits" in cells:
            told[KINDS.index("edits")] += f" ({sum(len(edits_of(it)) for it in crates)})"
        line(name, *told, minutes(end))

    def line(name, proof, tests, edits, built, end):
        print(f"    {name:13}{proof:>6}{tests:>7}{edits:>11}{built:>10}{end:>8}")

    crates = sorted({crate for crate, _ in tasks})
    of_crate = {name: {kind: it.spent for (crate, kind), it in tasks.items() if crate == name} for name in crates}
    line("", "proof", "tests", "edits", "programs", "ended")
    for name in sorted(crates, key=lambda it: -sum(of_crate[it].values())):
        row(name, of_crate[name], [name], max(it.end for (crate, _), it in tasks.items() if crate == name))
    sums = defaultdict(float)
    for (_, kind), it in tasks.items():
        sums[kind] += it.spent
    row("all", sums, [it for it in crates if "edits" in of_crate[it]], max(it.end for it in tasks.values()))


def told_lane(what, chain, tasks):
    """A line on a lane: its tasks, and how long they took and waited."""
    steps = [f"`{crate}` {kind} {minutes(tasks[crate, kind].end)}" for crate, kind in chain]
    took, end = sum(tasks[it].clock for it in chain), tasks[chain[-1]].end
    told = f"{what}, and when each part ended, in minutes by the clock: {', '.join(steps)}."
    print(f"\n{told} Its parts took {minutes(took)}, and it ended after {minutes(end)}.")


def told_sums(checks, of_all):
    """A line on what the processor had to do."""
    of_kind = defaultdict(float)
    for it in checks:
        of_kind[it.kind] += it.spent
    building = sum(of_kind[it] for it in BUILDING)
    parts = ", ".join(f"{words} {minutes(of_kind[it])}" for it, words in BUILDING.items() if of_kind[it])
    count = sum(len(edits_of(it)) for it in {it.crate for it in checks if it.kind == "edits"})
    told = [f"proofs {minutes(of_kind['proof'])}", f"tests {minutes(of_kind['tests'])}, of them the compiler {minutes(of_kind[COMPILED])}"]
    told += [f"{count or 'no'} edits {minutes(of_kind['edits'])}", f"the building of programs {minutes(building)}{parts and f' ({parts})'}"]
    end = "."
    if of_all:
        rest = of_all.spent - sum(it.spent for it in checks if it.kind != COMPILED)
        told.append(f"`rt` itself and what it runs {minutes(rest)}")
        end = f". In all {minutes(of_all.spent)}, and {minutes(of_all.end)} by the clock."
    print(f"\nMinutes of the processor: {'; '.join(told)}{end}")


def told_yardstick(tasks, of_all):
    if (YARDSTICK, "proof") not in tasks:
        print(f"\nThe proof of {YARDSTICK} was not seen, so there is no yardstick.")
        return
    seconds = tasks[YARDSTICK, "proof"].spent
    then = f", so all would be {minutes(of_all.spent * SECONDS_THEN / seconds)} minutes where it takes {SECONDS_THEN}" if of_all else ""
    print(f"\nThe yardstick: the proof of `{YARDSTICK}` took {seconds:.0f} seconds{then}.")


def report(checks, of_all):
    if not checks:
        print("\ntools/dev gate-time: no check was seen")
        return
    tasks, below = by_task([it for it in checks if it.kind != COMPILED]), needs()
    last, longest = last_lane(tasks, below), longest_lane(tasks, below)
    print("Seconds of the processor (in brackets how many edits, the first a whole check of the crate), and minutes by the clock until all had ended.\n")
    table(tasks)
    told_sums(checks, of_all)
    told_yardstick(tasks, of_all)
    if last != longest:
        told_lane("The lane that ended last", last, tasks)
    told_lane("The longest lane, which ended last" if last == longest else "The longest lane", longest, tasks)


def report_edits(checks):
    """Each edit: they are tried in the order of their names, and behind them the crate as it is."""
    found = defaultdict(list)
    for it in sorted(checks, key=lambda it: it.begin):
        if it.kind == "edits":
            found[it.crate].append(it)
    print("\n| Edit | Seconds of the processor | By the clock |\n|---|---|---|")
    for crate, its in found.items():
        names = [*edits_of(crate), "(the crate as it is)"]
        for at, it in enumerate(its):
            name = names[at] if at < len(names) else "(once more)"
            print(f"| `{crate}`: {name} | {it.spent:,.1f} | {it.end - it.begin:,.1f} |")


def arguments(parser):
    either = parser.add_mutually_exclusive_group()
    either.add_argument("--of", type=int, metavar="PID", help="watch a gate that runs already, from now on until it ends")
    either.add_argument("--page", action="store_true", help="print what it told of the last run once more, as docs/GATE.md has it, on standard output")
    either.add_argument("--again", action="store_true", help="the same on standard error, and each edit by its name")
    parser.add_argument("words", nargs=argparse.REMAINDER, metavar="WORD ..", help="what to run in the place of `rt ci`, as `.ci/run`")


def main(given):
    if given.page:
        report(*kept_checks())
        return 0
    status = 0
    if not given.again:
        KEPT.parent.mkdir(exist_ok=True)
        KEPT.write_text("", encoding="utf-8")
    if given.of is not None:
        look_at(given.of)
    elif not given.again:
        status = run(given.words or ["rt", "ci"])
    checks, of_all = kept_checks()
    sys.stdout.flush()
    sys.stdout = sys.stderr
    print()
    report(checks, of_all)
    if given.again:
        report_edits(checks)
    return status
