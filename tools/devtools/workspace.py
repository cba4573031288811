"""Where things stand in this repository."""

import re
from pathlib import Path

ROOT = Path(__file__).resolve().parent.parent.parent
TOOLS = ROOT / "tools"
CRATES = ROOT / "crates"
CAPD = CRATES / "capd" / "out" / "capd"
# The library for C: its header, source, tests and examples, and where the command c-library builds it.
C = ROOT / "c"
HEADER = C / "include" / "baybowl.h"
C_BUILT = ROOT / "out" / "c"
LIBRARY = C_BUILT / "libbaybowl.a"

# The crates that make the step of the core; those below each know one thing.
CORE = ["capcore", "step_acts", "capstep"]
# A part of crates.txt, and the one of what no program of users is made of.
HEADING = re.compile(r"# ([A-Z][\w ]*)$")
BESIDE = "Measured and tested"


def needs():
    """What each crate of crates.txt stands on, in the repository and in the kit."""
    found = {}
    for line in (ROOT / "crates.txt").read_text(encoding="utf-8").splitlines():
        name, has_needs, rest = line.split("#")[0].partition(":")
        if has_needs:
            found[name.split()[0]] = rest.split()
    return found


def parts():
    """The crates of each part of crates.txt, by its name."""
    found, name = {}, None
    for line in (ROOT / "crates.txt").read_text(encoding="utf-8").splitlines():
        if heading := HEADING.match(line):
            name = heading[1]
            found[name] = []
        elif name and ":" in line.split("#")[0]:
            found[name].append(line.split(":")[0].split()[0])
    return found
