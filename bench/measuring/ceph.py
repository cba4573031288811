"""Debian's ceph-mds of the releases that are compared with: its packages, and how it is run.

The packages of a release are put into a folder of their own and installed nowhere, and the program is run by the loader and the C library
that come with it. Which packages these are says apt, by lists of its own beside them: the program's, and of the libraries that it loads.
"""

import os
import shutil
import subprocess
import sys
from dataclasses import dataclass
from pathlib import Path

KEYRING = "/usr/share/keyrings/debian-archive-keyring.gpg"
MIRROR = "http://deb.debian.org/debian"
# The packages that the others are found by. The first has the program, and the second most of its code.
PROGRAM = ["ceph-mds", "librados2"]


@dataclass(frozen=True)
class Release:
    """A release by its version, and the suite of Debian that has it."""

    number: int
    version: str
    suite: str


RELEASES = {it.number: it for it in (Release(16, "16.2.15", "bookworm"), Release(18, "18.2.7", "trixie"), Release(20, "20.2.4", "forky"))}


def cache():
    """The folder that has the packages where none is named."""
    return Path(os.environ.get("XDG_CACHE_HOME") or Path.home() / ".cache") / "baybowl" / "ceph"


def arguments(parser):
    parser.add_argument("--packages", type=Path, default=cache(), metavar="FOLDER", help="where Debian's packages are, or are fetched to (%(default)s)")
    parser.add_argument("--mirror", default=MIRROR, metavar="URL", help="whence they are fetched (%(default)s)")


def done(words, **how):
    """What is printed by a program, which has to end well."""
    ran = subprocess.run([*map(str, words)], stdout=subprocess.PIPE, stderr=subprocess.STDOUT, text=True, **how)
    if ran.returncode != 0:
        sys.exit(f"{ran.stdout}bench/bench: {words[0]} ended with status {ran.returncode}")
    return ran.stdout


class Program:
    """The ceph-mds of a release, in a folder of its own."""

    def __init__(self, release, packages):
        self.release = release
        self.folder = packages.resolve() / release.version
        self.root = self.folder / "root"

    def fetch(self, mirror):
        """Puts the packages into the folder, if they are not there."""
        if self.root.exists():
            return
        self.write_lists(mirror)
        self.apt("apt-get", "-q", "update")
        debs = self.folder / "debs"
        debs.mkdir(exist_ok=True)
        self.apt("apt-get", "-q", "download", *sorted(self.needed()), cwd=debs)
        made = self.folder / "made"
        for package in sorted(debs.glob("*.deb")):
            done(["dpkg", "-x", package, made])
        made.rename(self.root)
        told = done([*self.words(), "--version"])
        if f"version {self.release.version} " not in told:
            shutil.rmtree(self.folder)
            sys.exit(f"{told}{mirror} has no {self.release.version} in {self.release.suite}: --mirror names another")

    def write_lists(self, mirror):
        for folder in ("state/lists/partial", "cache/archives/partial"):
            (self.folder / folder).mkdir(parents=True, exist_ok=True)
        (self.folder / "state" / "status").touch()
        (self.folder / "sources.list").write_text(f"deb [arch=amd64 signed-by={KEYRING}] {mirror} {self.release.suite} main\n")

    def apt(self, tool, *words, **how):
        """What apt says by the lists in the folder, by which nothing is installed. A suite that is made no more may be past its date."""
        at = self.folder
        options = [f"Dir::State={at}/state", f"Dir::State::status={at}/state/status", f"Dir::Cache={at}/cache"]
        options += [f"Dir::Etc::sourcelist={at}/sources.list", "Dir::Etc::sourceparts=/dev/null", "Acquire::Check-Valid-Until=false"]
        return done([tool, *(word for option in options for word in ("-o", option)), *words], **how)

    def needed(self):
        """The names of the packages: of those that others depend on, the libraries."""
        found, new = set(PROGRAM), PROGRAM
        while new:
            told = self.apt("apt-cache", "depends", *new).splitlines()
            names = {line.split(": ")[1] for line in told if "Depends: " in line}
            new = sorted(name for name in names - found if name.startswith(("lib", "zlib")))
            found.update(new)
        return found

    def words(self, preloaded=None):
        """The words that run the program, with a library before all others."""
        loader = next(it for it in self.root.rglob("ld-linux-x86-64.so.2") if not it.is_symlink())
        folders = [self.root / "usr/lib/x86_64-linux-gnu", self.root / "usr/lib/x86_64-linux-gnu/ceph", self.root / "lib/x86_64-linux-gnu"]
        preload = [] if preloaded is None else ["--preload", preloaded]
        return [loader, "--library-path", ":".join(map(str, folders)), *preload, self.root / "usr/bin/ceph-mds"]
