"""Runs scripts of real events, and says how long each takes.

60 clients share so many files, each of which two of them open: it is made, shared, changed four times, of which each change
waits for what both cache, cut short and moved into the directory of the other, by 56 lines with all polls and acknowledgements
in between. No line is refused or denied. The numbers of changes that a file's lines acknowledge are the same for each file, so
they are found once, by a script of one file.

It takes crates/capd/out/capd as it is, which `rt ci` leaves there.
"""

import resource
import subprocess
import sys
import time

from .places import CAPD, be_there

CLIENTS = 60
SIZES = [5_000, 10_000, 20_000]

# What the clients A and B ask of the file I, in the directory D of A and then in E of B. `?` is the number of the last change
# that the client was told of.
OPENED = ["create A D F 0644", "open A I rw", "open B I r", "poll A 9", "ack A I ?", "poll B 9", "release A I Fw", "poll A 9",
          "poll B 9", "want A I pAsLsXsFscr", "want B I pAsFscr"]
CHANGED = ["alter B I chmod {mode}", "poll A 9", "ack A I ?", "poll B 9", "ack B I ?", "poll A 9", "poll B 9"]
WRITTEN = ["open B I w", "poll A 9", "ack A I ?", "poll B 9", "alter A I size 4096", "poll B 9", "ack B I ?", "poll A 9",
           "ack A I ?", "poll B 9", "poll A 9"]
MOVED = ["rename A I E F", "poll A 9", "ack A I ?", "poll A 9", "poll B 9"]


def changed(mode):
    return [line.format(mode=mode) for line in CHANGED]


FILE = OPENED + changed("0610") + changed("0620") + WRITTEN + MOVED + changed("0630") + changed("0640") + ["poll A 9"]


def opening(clients):
    """The lines before the files: the clients, and a directory for each."""
    sessions = [f"session {client} {client * 10} {client * 10} - allow rw" for client in range(1, clients + 1)]
    return sessions + [f"mkdir {client} 1 d{client} 0755" for client in range(1, clients + 1)]


def said(line, first, second, clients, file):
    """The line of one file, shared by two clients."""
    names = {"A": first, "B": second, "I": clients + 2 + file, "D": first + 1, "E": second + 1, "F": f"f{file}"}
    return " ".join(str(names.get(word, word)) for word in line.split(" "))


def answers(lines):
    """What is answered to each line: its lines."""
    text = subprocess.run([CAPD, "run"], input="\n".join(lines) + "\n", capture_output=True, text=True, check=True).stdout
    groups = []
    for line in text.splitlines():
        if line.startswith("  "):
            groups[-1].append(line.split())
        else:
            groups.append([line.split()])
    return groups


def numbered():
    """The lines of a file with the numbers that are acknowledged."""
    lines, played, told = [], opening(2), {"A": 0, "B": 0}
    for line in FILE:
        client = line.split(" ")[1]
        line = line.replace("?", str(told[client]))
        lines.append(line)
        played.append(said(line, 1, 2, 2, 0))
        last = answers(played)[-1]
        for reply in last:
            if reply[0] == "caps":
                told[client] = int(reply[2] if line.startswith("poll") else reply[1])
    return lines


def script(files):
    """The whole script."""
    lines, of_file = opening(CLIENTS), numbered()
    for file in range(files):
        first, second = file % CLIENTS + 1, (file + 1) % CLIENTS + 1
        lines += [said(line, first, second, CLIENTS, file) for line in of_file]
    return "\n".join(lines) + "\n"


def run(files):
    text = script(files)
    count = text.count("\n")
    before, start = resource.getrusage(resource.RUSAGE_CHILDREN), time.monotonic()
    done = subprocess.run([CAPD, "run"], input=text, capture_output=True, text=True, check=True)
    wall, after = time.monotonic() - start, resource.getrusage(resource.RUSAGE_CHILDREN)
    if any(line.startswith(("refused", "denied")) for line in done.stdout.splitlines()):
        sys.exit("a line was refused")
    spent = after.ru_utime - before.ru_utime + after.ru_stime - before.ru_stime
    print(f"{files:>7} files {count:>9} lines {len(text):>10} bytes {spent:7.2f} s of processor {wall:7.2f} s {count / spent:9.0f} lines a second")


def arguments(parser):
    parser.add_argument("files", nargs="*", type=int, metavar="FILES", help="so many files (default: 5000, 10000 and 20000)")


def main(given):
    be_there(CAPD)
    for files in given.files or SIZES:
        run(files)
    return 0
