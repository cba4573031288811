"""How instructions and memory are counted: by callgrind and gdb."""

import ctypes
import re
import shlex
import shutil
import subprocess
import sys
import tempfile
from pathlib import Path

# All programs are counted in the same surroundings: these lie on a program's stack, and where it begins can count.
SURROUNDINGS = {"PATH": "/usr/bin:/bin", "LC_ALL": "C"}
# Valgrind runs one thread at a time. Where it lets the system choose which, one that asks beside one that goes on all the time may
# wait for minutes.
IN_TURN = ["--fair-sched=yes"]
# So many seconds a run may take at most.
LONGEST = 300
# The call of prctl by which a process, and what it starts, has its memory in pages of the common size alone.
SMALL_PAGES = (41, 1, 0, 0, 0)


def callgrind(words, flags, given=""):
    """A program's run, and how many instructions callgrind says that it took."""
    words = [str(it) for it in words]
    command = [shutil.which("valgrind") or "valgrind", "--tool=callgrind", *IN_TURN, *flags, *words]
    try:
        done = subprocess.run(command, input=given, capture_output=True, text=True, env=SURROUNDINGS, timeout=LONGEST)
    except subprocess.TimeoutExpired:
        sys.exit(f"{' '.join(words)} did not end within {LONGEST} seconds under callgrind")
    found = re.search(r"Collected : (\d+)", done.stderr)
    if done.returncode != 0 or found is None:
        sys.exit(f"{' '.join(words)} failed with status {done.returncode}:\n{done.stderr}")
    return done, int(found.group(1))


def counted(words, given=""):
    """The instructions of a whole program, and what it wrote."""
    done, found = callgrind(words, ["--callgrind-out-file=/dev/null"], given)
    return found, done.stdout


def counted_last(words, given=""):
    """The instructions of the thread that a program started last, and what the program wrote."""
    with tempfile.TemporaryDirectory() as room:
        done, _ = callgrind(words, ["--separate-threads=yes", f"--callgrind-out-file={room}/thread"], given)
        # (thread-01 is the first)
        last = max(Path(room).glob("thread-*")).read_text(encoding="utf-8")
    return int(re.search(r"^totals: (\d+)", last, re.MULTILINE).group(1)), done.stdout


def at_its_end(words, given=""):
    """What gdb tells of a program before it ends, what it complains of, and what the program wrote. Where the system keeps memory in
    larger pages, a program has more: so that its peak is the same on all machines, it does without."""
    ctypes.CDLL(None).prctl(*SMALL_PAGES)
    program, *rest = (str(it) for it in words)
    with tempfile.TemporaryDirectory() as room:
        read, written = Path(room, "read"), Path(room, "written")
        read.write_text(given, encoding="utf-8")
        # The program stops before it ends, when all that it ever took is still told of it.
        told = ["catch syscall exit_group", f"run {shlex.join(rest)} < {read} > {written}", "info proc status", "kill"]
        command = ["gdb", "-q", "-batch", *(it for line in told for it in ("-ex", line)), program]
        done = subprocess.run(command, stdin=subprocess.DEVNULL, capture_output=True, text=True)
        return done.stdout, done.stderr, written.read_text(encoding="utf-8") if written.exists() else ""


def tells_peaks():
    """Whether there is a gdb, and it may look at what it runs."""
    return bool(shutil.which("gdb")) and "VmHWM" in at_its_end(["true"])[0]


def told_peak(words, given=""):
    """The most memory that a program had, in bytes, as the system tells it before the program ends; and what it wrote."""
    told, complained, written = at_its_end(words, given)
    found = re.search(r"VmHWM:\s+(\d+) kB", told)
    if found is None:
        sys.exit(f"gdb told nothing of {' '.join(map(str, words))}:\n{told}{complained}")
    return int(found.group(1)) * 1024, written
