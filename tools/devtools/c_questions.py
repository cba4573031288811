"""Random questions, each asked of c/examples/explain.c, by a block that is filled from the grants, by their text and by the mask of a
server, and of `capd explain`: all have to write the same, byte for byte, but for what `capd` says may help, behind the line of a
fault."""

import os
import random
import subprocess
from collections import Counter
from concurrent.futures import ThreadPoolExecutor

FLAGS = ["r", "rw", "rwp", "rws", "rwps", "*", "all"]
# The last is no UTF-8.
NAMES = ["a", "b", "ab", "c.d", "x_y", "-", "..", "\udcff\udc80"]
FILE_SYSTEMS = ["cephfs", "other", "a", "x" * 64]
IDS = [0, 1, 7, 50, 1000, 1001, 4294967295]
# What a text is spoiled with: a word, a mark or a byte.
SPOILS = ["f", ",", ";", " ", "'", '"', "uid=", "uid=1", "gids=1", "network", "path=", "allow", "fsname=*", "root_squash", "0", "\t"]


def some_path(pick, most):
    names = [pick.choice(NAMES) for _ in range(pick.randint(0, most))]
    return pick.choice(["", "/"]) + pick.choice(["/", "/", "//"]).join(names) + pick.choice(["", "/"])


def some_grant(pick, path):
    words = ["allow", pick.choice(FLAGS)]
    items = []
    if pick.random() < 0.3:
        items.append("fsname=" + pick.choice(FILE_SYSTEMS + ["*"]))
    if pick.random() < 0.7:
        # Often a beginning of the path that is asked for.
        names = [it for it in path.split("/") if it]
        below = "/".join(names[: pick.randint(0, len(names))]) if pick.random() < 0.6 else some_path(pick, 4)
        # A byte that a bare path can't have stands in quotes, mostly.
        quote = pick.choice(["", "", '"', "'"] if below.isascii() or pick.random() < 0.02 else ['"', "'"])
        items.append(f"path={quote}/{below}{quote}")
    if pick.random() < 0.5:
        items.append(f"uid={pick.choice(IDS)}")
        if pick.random() < 0.7:
            items.append("gids=" + ",".join(str(pick.choice(IDS)) for _ in range(pick.randint(1, 3))))
    if pick.random() < 0.2:
        items.append("root_squash")
    pick.shuffle(items)
    return pick.choice([" ", " ", "  "]).join(words + items)


def some_grants(pick, path):
    count = pick.choice([1, 1, 2, 2, 3, 4, 16]) if pick.random() < 0.9 else pick.randint(1, 17)
    text = pick.choice([", ", ",", ";", " ; "]).join(some_grant(pick, path) for _ in range(count))
    if pick.random() < 0.15:
        at = pick.randint(0, len(text))
        text = text[:at] + pick.choice(SPOILS) + text[at + pick.randint(0, 2) :]
    return text


def some_question(pick):
    """The values of the options, each of which is one of the library's to refuse."""
    path = some_path(pick, 6)
    if pick.random() < 0.02:
        path = "/".join(["n"] * pick.choice([32, 33])) if pick.random() < 0.5 else "/" + "y" * pick.choice([255, 256])
    access = pick.choice(["read", "write", "write", "vxattr", "snapshot", "chmod", "chown:", "chgrp:"])
    values = {
        "grants": some_grants(pick, path),
        "fs": pick.choice(FILE_SYSTEMS) if pick.random() < 0.97 else pick.choice(["", "*", "a/b", "x" * 65]),
        "uid": str(pick.choice(IDS)),
        "gid": str(pick.choice(IDS)),
        "path": path,
        "owner": str(pick.choice(IDS)),
        "group": str(pick.choice(IDS)),
        "mode": f"{pick.choice([0, 0o400, 0o640, 0o755, 0o777, 0o7777, pick.randint(0, 0o7777)]):o}",
        "access": access + (str(pick.choice(IDS)) if access.endswith(":") else ""),
    }
    if pick.random() < 0.04:
        values["mode"] = pick.choice(["10000", "00640", "0100640", "040755", "0140777", "030644", "0160000", "0648", ""])
    while pick.random() < 0.03:
        values[pick.choice(["uid", "gid", "owner", "group", "groups", "access"])] = pick.choice(["x", "-1", " 1", "4294967296", "01", "1,", ""])
    if "groups" not in values and pick.random() < 0.5:
        count = pick.choice([1, 2, 3, 16]) if pick.random() < 0.98 else 17
        values["groups"] = ",".join(str(pick.choice(IDS)) for _ in range(count))
    return values


def words_of(values, number):
    """The options in their two forms, in turn. A value that begins with a dash stands behind a `=`."""
    words = []
    for name, value in values.items():
        is_one = number % 2 or value.startswith("-")
        words += [f"--{name}={value}"] if is_one else [f"--{name}", value]
    return words


def said_by(words):
    done = subprocess.run(words, stdin=subprocess.DEVNULL, stdout=subprocess.PIPE, stderr=subprocess.PIPE)
    return done.returncode, done.stdout, done.stderr


def compare(number, seed, explain, capd):
    """Asks question `number` of all. Gives the first word of the answer, and what was said where they differ."""
    values = some_question(random.Random(f"{seed}-{number}"))
    asked = [explain, *words_of(values, number)]
    told = [said_by([*asked, "--by", kind]) for kind in ("block", "text", "mask")]
    if values["access"] == "chmod" and told[0][0] == 0:
        # No mask asks for it.
        told[2] = told[0]
    wanted = said_by([capd, "explain", *[f"--{name}={value}" for name, value in values.items()]])
    status, out, err = wanted
    line, *more = err.splitlines(keepends=True) or [b""]
    assert all(it.startswith(b"hint: ") for it in more), err
    wanted = status, out, line.replace(b"capd: ", b"explain: ", 1)
    kind = out.split(b" ")[0].decode() or f"status {status}"
    return kind, None if told == [wanted] * 3 else (values, told, wanted)


def ask(count, seed, explain, capd):
    """Asks so many questions. Gives how many there were of each kind of answer, and those that were answered differently."""
    kinds, differing = Counter(), []
    with ThreadPoolExecutor(os.cpu_count()) as pool:
        for kind, found in pool.map(lambda number: compare(number, seed, explain, capd), range(count)):
            kinds[kind] += 1
            if found is not None:
                differing.append(found)
    return kinds, differing
