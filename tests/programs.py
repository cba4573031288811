"""The programs and the library that these tests ask, and the texts that talks read, as `rt ci` and `tools/dev c-library` leave them, and how a test reads its words."""

import argparse
import sys
from pathlib import Path

ROOT = Path(__file__).resolve().parent.parent
CAPD = ROOT / "crates" / "capd" / "out" / "capd"
CAPBENCH = ROOT / "crates" / "capbench" / "out" / "capbench"
LIBRARY = ROOT / "out" / "c" / "libbaybowl.a"
# What the talks read.
DATA = ROOT / "crates" / "capbench" / "data"
MADE_BY = {CAPD: "rt ci", CAPBENCH: "rt ci", LIBRARY: "tools/dev c-library"}


def parser(doc):
    """The parser of a test's words, whose `--help` prints what the test's file begins with."""
    return argparse.ArgumentParser(description=doc, formatter_class=argparse.RawDescriptionHelpFormatter)


def be_there(*needed):
    """Ends where something that the test asks was not built."""
    for path in needed:
        if not path.exists():
            sys.exit(f"no {path}: `{MADE_BY.get(path, 'rt ci')}` makes it")
