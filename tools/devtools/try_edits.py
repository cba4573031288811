"""Tries the wrong edits of the named crates, or of all: those in wrong/, which the gate leaves out. The prover must refuse each.

`rt must-fail` reads the folder must-fail/ alone, so it runs on a copy in which wrong/ stands in that place. What earlier checks kept in
out/ is copied too, so the crates below are not proved again. The status is 0 where each edit was refused, 1 where one was not, and 2
where a crate has no such folder.
"""

import re
import shutil
import subprocess
import sys
import tempfile
from pathlib import Path

from .workspace import CRATES, ROOT

TRIED, REFUSED = re.compile("must-fail [a-z_]*/"), ": refused, as it must be"


def arguments(parser):
    parser.add_argument("crates", nargs="*", metavar="CRATE")


def copy_to(room, crates):
    """Copies the sources, and what checks kept of them, with the edits of these crates where `rt must-fail` looks for them."""
    subprocess.run(["cp", "-a", "--reflink=auto", "crates", "crates.txt", room], cwd=ROOT, check=True)
    for crate in crates:
        folder = Path(room, "crates", crate)
        shutil.rmtree(folder / "must-fail", ignore_errors=True)
        (folder / "wrong").rename(folder / "must-fail")


def main(given):
    crates = given.crates or sorted(path.parent.name for path in CRATES.glob("*/wrong"))
    for crate in crates:
        if not (CRATES / crate / "wrong").is_dir():
            print(f"tools/dev try-edits: crates/{crate} has no folder wrong/", file=sys.stderr)
            return 2
    with tempfile.TemporaryDirectory() as room:
        copy_to(room, crates)
        lines = []
        with subprocess.Popen(["rt", "must-fail", *crates], cwd=room, stdout=subprocess.PIPE, text=True) as trial:
            for line in trial.stdout:
                print(line, end="", flush=True)
                lines.append(line)
    tried, refused = sum(bool(TRIED.search(line)) for line in lines), sum(REFUSED in line for line in lines)
    print(f"{tried} tried, {refused} refused")
    return 1 if trial.returncode else 0
