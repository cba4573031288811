"""Times `capd audit` and `jq -c '.[]'` on the tree of an MDS with many inodes, as `bench/bench write cluster` writes it.

It takes some minutes, 1.5 GB of disk and jq, and crates/capd/out/capd as it is, which `rt ci` leaves there; the variable CAPD of the
environment names another one.
"""

import os
import re
import subprocess
import sys
import tempfile
import time
from pathlib import Path

from . import cluster
from .places import CAPD, be_there

SIZES = (2_000, 20_000, 100_000)


def timed(words):
    """Seconds by the clock, and the most memory in MB, as the system last told it."""
    most = 0.0
    start = time.monotonic()
    with subprocess.Popen(words, stdout=subprocess.DEVNULL) as process:
        while process.poll() is None:
            try:
                told = re.search(r"VmHWM:\s+(\d+) kB", Path(f"/proc/{process.pid}/status").read_text())
            except OSError:
                told = None
            most = max(most, int(told[1]) / 1024) if told else most
            time.sleep(0.005)
    if process.returncode not in (0, 3):
        sys.exit(f"{' '.join(map(str, words))}: status {process.returncode}")
    return time.monotonic() - start, most


def measure(capd, count):
    with tempfile.TemporaryDirectory() as name:
        folder = Path(name)
        cluster.write(folder, count)
        tree = folder / "tree.json"
        audit = [capd, "audit"] + [word for kind in ("auth", "sessions", "tree") for word in (f"--{kind}", folder / f"{kind}.json")]
        rows = [("capd audit", *timed(audit)), ("jq -c '.[]'", *timed(["jq", "-c", ".[]", tree]))]
        size = tree.stat().st_size / 1e6
        for what, seconds, memory in rows:
            print(f"{count:>8,} inodes  {size:8.1f} MB  {what:<12} {seconds:7.2f} s  {memory:8.1f} MB", flush=True)


def arguments(parser):
    parser.add_argument("inodes", nargs="*", type=int, metavar="INODES", help="trees of so many inodes (default: 2000, 20000 and 100000)")


def main(given):
    capd = Path(os.environ.get("CAPD", CAPD))
    if capd == CAPD:
        be_there(CAPD)
    for count in given.inodes or SIZES:
        measure(capd, count)
    return 0
