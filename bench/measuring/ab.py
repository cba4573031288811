"""Times the workloads of bench/workloads.txt in two built checkouts by turns, and prints the medians and their ratio. `bench/run OLD NEW`
is the same.

Each workload is run once in both checkouts, and what they write has to be the same; then seven times in each, by turns. Each checkout
says in its own bench/workloads.txt which program does a workload, by which words. Build both before (`rt run` in the crates that these
name, or `rt ci`), and let nothing else work on the machine.
"""

import shlex
import statistics
import subprocess
import sys
import time
from pathlib import Path

TURNS = 7


def workloads(folder):
    """The name of each workload, its crate and its words."""
    try:
        text = (folder / "workloads.txt").read_text(encoding="utf-8")
    except OSError as fault:
        sys.exit(f"bench/bench ab: {fault.filename}: {fault.strerror}")
    for line in text.splitlines():
        name, crate, *words = shlex.split(line)
        yield name, crate, words


def said(words, seed):
    """The words of a workload, with the number in the place of SEED."""
    return [str(seed) if word == "SEED" else word for word in words]


def lines(checkout, seed):
    """The crate and the words of each workload of a checkout, by its name."""
    return {name: (crate, said(words, seed)) for name, crate, words in workloads(checkout / "bench")}


def run(checkout, name, crate, words):
    """Runs a workload in a checkout: the seconds that it took, and what it wrote. Where it fails, what it said is printed."""
    folder = checkout / "bench"
    line = f"{name}: {crate} {' '.join(words)}"
    given = subprocess.DEVNULL
    if words and words[-1].startswith("<"):
        given = (folder / words[-1][1:]).open("rb")
        words = words[:-1]
    program = checkout / "crates" / crate / "out" / crate
    began = time.perf_counter()
    try:
        done = subprocess.run([program, *words], cwd=folder, stdin=given, stdout=subprocess.PIPE, stderr=subprocess.PIPE)
    except OSError as fault:
        sys.exit(f"bench/bench ab: {line}: {program} does not start: {fault.strerror}")
    seconds = time.perf_counter() - began
    if done.returncode != 0:
        heard = done.stderr.decode(errors="replace").strip() or "nothing"
        sys.exit(f"bench/bench ab: {line}: status {done.returncode} in {checkout}, and said: {heard}")
    return seconds, done.stdout


def compare(old, new, name):
    """The median seconds of both checkouts, which write the same. Each is a folder, with the lines of its workloads."""
    times = [], []
    wanted = run(old[0], name, *old[1][name])[1]
    for turn in range(TURNS + 1):
        for taken, (checkout, named) in zip(times, (old, new)):
            seconds, written = run(checkout, name, *named[name])
            if written != wanted:
                sys.exit(f"bench/bench ab: {name}: {' '.join(named[name][1])}: what is written differs in {checkout}")
            if turn > 0:
                taken.append(seconds)
    return [statistics.median(taken) for taken in times]


def arguments(parser):
    parser.add_argument("old", type=Path, metavar="OLD", help="a checkout")
    parser.add_argument("new", type=Path, metavar="NEW", help="and another")
    parser.add_argument("seed", nargs="?", type=int, default=1, metavar="SEED", help="of the inputs, below 4,294,967,296 (default: 1)")


def main(given):
    old, new = ((folder, lines(folder, given.seed)) for folder in (given.old.resolve(), given.new.resolve()))
    if old[1].keys() != new[1].keys():
        sys.exit("bench/bench ab: the two checkouts have other workloads")
    print("| Workload | Seconds, old | Seconds, new | Old over new |\n|---|---|---|---|")
    for name in new[1]:
        before, after = compare(old, new, name)
        print(f"| {name} | {before:.3f} | {after:.3f} | {before / after:.2f} |", flush=True)
    return 0
