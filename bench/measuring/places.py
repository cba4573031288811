"""Where things stand that are measured, and whether they are there."""

import sys

from devtools.workspace import CAPD, CRATES, LIBRARY, ROOT

BENCH = ROOT / "bench"
CAPBENCH = CRATES / "capbench" / "out" / "capbench"
MADE_BY = {CAPD: "rt ci", CAPBENCH: "bench/bench count policy", LIBRARY: "tools/dev c-library"}


def be_there(*needed):
    """Ends where something that is measured was not built."""
    for path in needed:
        if not path.exists():
            sys.exit(f"no {path}: {MADE_BY[path]} builds it")
