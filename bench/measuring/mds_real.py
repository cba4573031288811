"""The real code of a ceph-mds, asked of texts of grants and questions on them: by `mds_answers.cc`, which is preloaded into the program."""

import ipaddress
import re
import subprocess
import sys
from dataclasses import dataclass

from . import ceph
from .places import BENCH, ROOT

OUT = ROOT / "out" / "mds"
# What is said of a text that is not read. Where the flags are at fault, 18 and 20 tell no place.
STOPPED = re.compile(rb"mds capability parse failed, stopped at (?:'(?P<rest>.*)'|end) of '.*'", re.DOTALL)
# A grant as it is printed. A quote within a path is not marked, so a path goes on to a quote with something behind it that ends a path.
ITEMS = rb"( root_squash)?( uid=\d+)?( gids=[\d,]+)?( network \S+)?"
PRINTED = re.compile(rb"allow \S+?( fsname=(?P<fs>[^ ,\]]+))?( path=\".*?\")?" + ITEMS + rb"(?=, allow |\]$)", re.DOTALL)
# What may be the address of a network.
ADDRESS = re.compile(rb"[0-9A-Fa-f.:]+(?=/)")


@dataclass(frozen=True)
class Unread:
    """A text that is not read, and the place up to which it makes sense, where that is told."""

    place: int | None


@dataclass(frozen=True)
class Read:
    """A text that is read: whether one grant is for everything, the grants as they are printed, and to each question the answers by address,
    a 1 or a 0 each, the first to a client of none."""

    is_all: bool
    printed: bytes
    answers: list[str]

    def grants(self):
        """The grants, one by one."""
        return list(PRINTED.finditer(self.printed))

    def mounts(self, fs):
        """Whether a client with these grants may mount the file system, as a server finds out."""
        return self.is_all or any(grant["fs"] in (None, fs) for grant in self.grants())

    def verdict(self, question, at):
        """What is said to the question, which stands at this place."""
        if not self.mounts(question.fs):
            return "cannot-mount"
        return "allowed" if self.allows(at) else "depends-on-address" if self.may_allow(at) else "denied"

    def allows(self, at):
        """Whether it is allowed wherever the client is."""
        return self.answers[at][0] == "1"

    def may_allow(self, at):
        """Whether it is allowed to a client at some address."""
        return "1" in self.answers[at]


def build():
    """What is preloaded."""
    made = OUT / "mds_answers.so"
    OUT.mkdir(parents=True, exist_ok=True)
    ceph.done(["g++", "-std=c++17", "-D_GNU_SOURCE", "-O2", "-Wall", "-Wextra", "-shared", "-fPIC", BENCH / "mds_answers.cc", "-o", made, "-ldl"])
    return made


def addresses(text):
    """The clients that are asked for: one of no address, one that is in few networks, and one in each network of the text."""
    found = ["-", "11.0.0.1"]
    for word in ADDRESS.findall(text):
        try:
            found.append(str(ipaddress.ip_address(word.decode())))
        except ValueError:
            continue
    return "".join(f"{it}," for it in found)


def answers(words, asked):
    """What the program, run by these words, makes of each text, with the questions on it."""
    lines = []
    for text, questions in asked:
        lines.append(f"text\t{text.hex()}")
        lines += ["\t".join(map(str, ["ask", *question.columns(), addresses(text)])) for question in questions]
    ran = subprocess.run([*map(str, words)], input="\n".join(lines) + "\n", stdout=subprocess.PIPE, stderr=subprocess.PIPE, text=True)
    if ran.returncode != 0:
        sys.exit(f"ceph-mds ended with status {ran.returncode}:\n{ran.stderr}")
    told = iter(ran.stdout.splitlines())
    return [answer(next(told), told, text, questions) for text, questions in asked]


def answer(line, told, text, questions):
    """What one line says of a text, and those behind it of the questions."""
    match line.split(" "):
        case ["read", is_all, printed]:
            return Read(is_all == "1", bytes.fromhex(printed), [next(told) for _ in questions])
        case ["unread", message]:
            stopped = STOPPED.fullmatch(bytes.fromhex(message))
            return Unread(None if stopped is None else len(text) - len(stopped["rest"] or b""))
    sys.exit(f"ceph-mds says {line}")
