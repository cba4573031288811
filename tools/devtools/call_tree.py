"""Prints which functions of this repository run from `Core::apply` to its reply: for an opening of a file that another client has open,
and for a rename of a directory whose files two clients have open.

It builds capd anew, unproved and with nothing inlined, and runs it under callgrind. Where PROGRAM is given, that is the program which an
earlier run left there, or it is built to there.

Each name counts once, whatever types it is made for. Left out are the kit's functions, closures, what derives write, what lets a value
go, and getters: those whose body is one field. The status is 0: this tells, and decides nothing. It needs `rt`, valgrind
and cc.
"""

import os
import re
import subprocess
import tempfile
from collections import Counter, defaultdict
from pathlib import Path

from .workspace import CORE, CRATES

APPLY = "capcore::step::Core::apply"
# The lines of a script, of which the last is walked.
STEPS = {
    "open": "session 1 1001 1001 - allow rw; session 2 1002 1002 - allow rw; create 1 1 notes 0644; open 1 2 rw; open 2 2 r",
    "rename": "session 1 0 0 - allow rw; session 2 1001 1001 - allow rw; mkdir 1 1 a 0755; mkdir 1 1 b 0755; mkdir 1 2 d 0755; "
    "create 1 4 x 0644; create 1 4 y 0644; create 1 4 z 0644; open 1 5 rw; open 2 6 r; open 1 7 r; rename 1 4 3 d",
}
# What is searched or asked for, and by which functions.
ASKED = {
    "searches of an entry in the table": ["captable::nodes::key_of"],
    "guesses at one": ["captable::table::CapTable::slot_near"],
    "verdicts on an access": ["capstep::judge::denial"],
    "sets that a client is permitted": ["capgrant::policy::permitted_by_kept"],
}
GETTER = re.compile(r"[&*]*(mut )?self(\.\w+)+(\.(as_slice|len|is_empty|copied|alloc|allocator)\(\))?")
FUNCTION = re.compile(r" *(?:pub(?:\([a-z]+\))? )?fn (\w+)")


def build(program):
    """Builds capd as rt try does, but for its last step: from the module that would be optimized there."""
    kit = Path(os.path.realpath(subprocess.run(["which", "rt"], capture_output=True, text=True).stdout.strip() or "/opt/rattle/bin/rt")).parent.parent
    with tempfile.TemporaryDirectory(prefix="call-tree-") as room:
        # A kit of links, whose clang hands the module out.
        for folder in ("", "bin", "toolchain", "toolchain/bin"):
            (Path(room) / "kit" / folder).mkdir(exist_ok=True, parents=True)
            for path in (kit / folder).iterdir():
                link = Path(room) / "kit" / folder / path.name
                if path.name in ("rt", "rtlib.py"):
                    link.write_bytes(path.read_bytes())
                    link.chmod(0o755)
                elif path.name not in ("bin", "toolchain", "clang") or (folder, path.name) == ("bin", "toolchain"):
                    link.symlink_to(path)
        clang = Path(room) / "kit/toolchain/bin/clang"
        clang.write_text(f"""#!/bin/bash
for word in "$@"; do
  case "$word" in *.bc) [ $(stat -c %s "$word") -gt 100000 ] && cp "$word" {room}/module.bc && exit 1;; esac
done
exec {kit}/toolchain/bin/clang "$@"
""")
        clang.chmod(0o755)
        subprocess.run([f"{room}/kit/bin/rt", "try", "--"], cwd=CRATES / "capd", stdin=subprocess.DEVNULL, capture_output=True, check=False)
        flags = ["--target=x86_64-unknown-linux-gnu", "-fPIE", "-O0", "-fno-inline", "-Wno-everything", "-ffunction-sections", "-x", "ir"]
        subprocess.run([kit / "toolchain/bin/clang", *flags, "-c", f"{room}/module.bc", "-o", f"{room}/capd.o"], check=True)
        c_code = [kit / "c/libos_c.a", kit / "c/liblibc_c.a"]
        subprocess.run(["cc", "-pie", "-Wl,--gc-sections", "-o", program, f"{room}/capd.o", *c_code, "-lpthread", "-lm"], check=True)


def calls(program, lines):
    """How often each function calls each other one below `apply`."""
    with tempfile.TemporaryDirectory(prefix="call-tree-") as room:
        words = ["valgrind", "--tool=callgrind", f"--callgrind-out-file={room}/out", f"--toggle-collect={APPLY}", program, "run"]
        subprocess.run(words, input="\n".join(lines).encode(), capture_output=True, check=True)
        names, found, caller, callee = {}, Counter(), None, None
        for line in open(f"{room}/out", encoding="utf-8", errors="replace"):
            if told := re.match(r"(c?)fn=\((\d+)\)(?: (.*))?", line):
                names.setdefault(told[2], told[3])
                caller, callee = (caller, told[2]) if told[1] else (told[2], None)
            elif line.startswith("calls="):
                found[re.sub(r"'\d+$", "", names[caller]), re.sub(r"'\d+$", "", names[callee])] += int(line[6:].split()[0])
    return found


def walk(program, lines):
    """How often each function runs in the step of the last line."""
    whole, before = calls(program, lines), calls(program, lines[:-1])
    step = {edge: count - before[edge] for edge, count in whole.items() if count > before[edge]}
    runs, at, seen = Counter(), [APPLY], {APPLY}
    while at:
        here = at.pop()
        for (_, callee), count in filter(lambda edge: edge[0][0] == here, step.items()):
            runs[callee] += count
            if callee not in seen:
                seen.add(callee)
                at.append(callee)
    return runs


def getters():
    for path in CRATES.glob("*/src/*.rt"):
        name, lines = None, path.read_text(encoding="utf-8").splitlines()
        for line, body, end in zip(lines, lines[1:], lines[2:]):
            if begins := FUNCTION.match(line):
                name = begins[1]
            if line.endswith("{") and end.strip() == "}" and GETTER.fullmatch(body.strip()):
                yield path.parent.parent.name, name


def own(runs):
    """Those that count, by crate."""
    left_out, found = set(getters()), defaultdict(Counter)
    for name, count in runs.items():
        path = re.sub(r"::<.*", "", name)
        crate, last = path.split("::")[0], path.split("::")[-1]
        if (CRATES / crate).is_dir() and not re.search(r"::fn::|Destruct|PartialEq|Ord::|::drop$", path) and (crate, last) not in left_out:
            found[crate][path] += count
    found["capcore"][APPLY] = 1
    return found


def arguments(parser):
    parser.add_argument("program", nargs="?", metavar="PROGRAM", help="capd, unproved and with nothing inlined: taken from there, or built to there")
    parser.add_argument("-v", "--verbose", action="store_true", help="list the functions of each crate, each with how often it runs")


def main(given):
    with tempfile.TemporaryDirectory(prefix="call-tree-") as room:
        program = os.path.abspath(given.program) if given.program else f"{room}/capd"
        if not os.path.exists(program):
            build(program)
        for step, script in STEPS.items():
            runs = walk(program, script.split("; "))
            found = own(runs)
            core = sum(len(found[crate]) for crate in CORE)
            print(f"{step}: {core} functions of the core's crates, {sum(map(len, found.values()))} of all")
            for what, names in ASKED.items():
                print(f"    {what}: {sum(runs[name] for name in names)}")
            for crate in [*CORE, *sorted(set(found) - set(CORE))]:
                print(f"    {crate}: {len(found[crate])}" + "".join(f"\n        {n} {name}" for name, n in sorted(found[crate].items()) if given.verbose))
