"""Single lines of a script at their dearest: how long one line may hold the server.

Each kind makes a script of ordinary, accepted lines, and one line behind them. What that line costs is what the script takes with it,
less what it takes without it.
"""

from collections.abc import Callable
from dataclasses import dataclass

from . import counting
from .lines import opened, sessions, text
from .places import CAPD

# The most requests that may wait, and inodes that a tree may have.
WAITING, INODES = 1024, 65536
# The most sessions that there may be, and bytes of a name that stays below the most.
CLIENTS, LONG = 64, 250
# How many directories stand in each other below one at the depth of 2, so that something is near the limit of 32 names.
CHAIN = 29


def files(count, directory=1):
    return [f"create 1 {directory} f{number} 644" for number in range(count)]


def shared(first, count):
    """Each of the clients has so many files open."""
    return [line for client in range(1, CLIENTS + 1) for line in opened(client, range(first, first + count))]


def waiting(count, inode):
    """So many requests of client 3 that wait for what client 2 has open to write."""
    return [f"open 2 {inode} rw"] + [f"alter 3 {inode} size 5"] * count


def directory():
    """A directory, inode 4, that can go to and fro between two others."""
    return ["mkdir 1 1 a 755", "mkdir 1 1 b 755", "mkdir 1 2 d 755"]


# ---- the kinds: from a size, the lines before and the one that is counted


def close_served(size, most=WAITING - 1):
    """Closes a session that has 4 n files open, where n changes wait for it, each at a file of its own."""
    last = 2 + 4 * size
    first = last - min(size, most)
    lines = sessions(2) + files(4 * size) + opened(1, range(2, first))
    for inode in range(first, last):
        lines += [f"open 1 {inode} rw", f"want 1 {inode} pFr"]
    return lines + [f"alter 2 {inode} size 5" for inode in range(first, last)], "close 1"


def close_served_behind(size):
    """The same, where n reads wait behind a change of one file more."""
    last, most = 2 + 4 * size, WAITING // 2 - 1
    lines = close_served(size, most)[0]
    lines += ["create 1 1 last 644", f"open 1 {last} rw", f"want 1 {last} pFr", f"alter 2 {last} size 5"]
    return lines + [f"get 2 {last} F"] * min(size, most), "close 1"


def evict_truncated(size):
    """Evicts a client that has 10 n files open to write, of which others opened n to write, and truncated them."""
    lines = sessions(11) + files(10 * size) + opened(1, range(2, 2 + 10 * size), "rw")
    for number in range(min(size, WAITING - 1)):
        client, inode = 2 + number % 10, 2 + 10 * number
        lines += [f"open {client} {inode} w", f"alter {client} {inode} size 0"]
    return lines, "evict 1"


def close_asker(size):
    """Closes a session that asked n changes of one file, which wait."""
    return sessions(3) + files(1) + waiting(size, 2), "close 3"


def stale(size):
    """Makes a session stale that has n files open."""
    return sessions(3) + files(size) + opened(1, range(2, 2 + size)), "stale 1"


def stale_beside(size):
    """The same, while 1,023 requests wait at another file."""
    lines = sessions(3) + files(size + 1) + opened(1, range(2, 2 + size))
    return lines + waiting(WAITING - 1, 2 + size), "stale 1"


def stale_by_paths(size):
    """Makes one of 64 sessions stale that share n open files, by sixteen grants on long paths each, of which the last alone allows."""
    name, depth = "d" * LONG, 14
    path, other = f"/{name}" * depth, f"/{name[:-1]}e" + f"/{name}" * (depth - 1)
    lines = ["session 999 0 0 - allow rw"] + [f"mkdir 999 {inode} {name} 777" for inode in range(1, depth + 1)]
    lines += [f"create 999 {depth + 1} f{number} 666" for number in range(size)] + ["close 999"]
    listed = ",".join(str(group) for group in range(100, 115))
    for client in range(1, CLIENTS + 1):
        grants = [f"allow rw path={on} uid={client} gids={listed},{client}" for on in [other] * 15 + [path]]
        lines.append(f"session {client} {client} {client} - {','.join(grants)}")
    return lines + shared(depth + 2, size), "stale 9"


def stale_by_groups(size):
    """The same of short paths, by sixteen grants whose groups are all looked at."""
    lines = ["session 999 0 0 - allow rw"] + [f"create 999 1 f{number} 644" for number in range(size)] + ["close 999"]
    listed = ",".join(str(group) for group in range(100, 116))
    groups = ",".join(str(group) for group in range(200, 215))
    for client in range(1, CLIENTS + 1):
        grants = [f"allow r uid={client} gids={listed}"] * 16
        lines.append(f"session {client} {client} {client} {groups},115 {','.join(grants)}")
    return lines + shared(2, size), "stale 9"


def rename_closed(size):
    """Moves a directory of n files that nobody has open."""
    return sessions(1) + directory() + files(size, 4), "rename 1 4 3 d"


def rename_opened(size):
    """Moves a directory of n files that are open."""
    return sessions(3) + directory() + files(size, 4) + opened(1, range(5, 5 + size)), "rename 1 4 3 d"


def rename_beside(size):
    """The same, while 1,023 requests wait at another file."""
    lines = sessions(3) + directory() + files(size, 4) + opened(1, range(5, 5 + size)) + files(1)
    return lines + waiting(WAITING - 1, 5 + size), "rename 1 4 3 d"


def renames_served(size):
    """Closes a session for which n / 10 renames of a directory of n files wait."""
    lines = sessions(2) + directory() + files(size, 4) + ["open 2 4 r", "want 2 4 pLs"]
    return lines + [f"rename 1 4 {3 - turn % 2} d{turn}" for turn in range(min(size // 10, WAITING - 1))], "close 2"


def renames_after_depth(size):
    """The same, near the limit of names, of a directory in which a chain of 29 was."""
    first = 5 + CHAIN
    made = [f"mkdir 1 {inode - 1} c 755" for inode in range(5, first)]
    removed = [f"rmdir 1 {inode}" for inode in reversed(range(5, first))]
    last = first + size + 2 * 3 - 1
    near = [f"mkdir 1 {above} t 755" for above in (2, last - 5, last - 4, 3, last - 2, last - 1)]
    lines = sessions(2) + directory() + made + removed + files(size, 4) + near + ["open 2 4 r", "want 2 4 pLs"]
    targets = (last, last - 3)
    return lines + [f"rename 1 4 {targets[turn % 2]} d{turn}" for turn in range(min(size // 10, WAITING - 1))], "close 2"


def one_more(size):
    """A change of a file at which n others wait."""
    return sessions(3) + files(1) + waiting(size, 2), "alter 1 2 size 6"


def backlog(size):
    """The lines by which n requests of client 2 end of which it was not told."""
    lines = sessions(3) + files(1)
    for _ in range(size // 500):
        lines += ["open 1 2 r", "want 1 2 pAs"] + ["alter 2 2 chmod 644"] * 500 + ["release 1 2 As"]
    return lines


def poll_all(size):
    """A poll for n messages."""
    return backlog(size), "poll 2 4294967295"


def poll_beside(size):
    """A poll of one to whom nothing is due, beside n messages to another."""
    return backlog(size), "poll 3 9"


def read_values(size):
    """Reads n values of 4,096 bytes."""
    lines = sessions(1) + files(1)
    return lines + [f"alter 1 2 setx user.{number:02} {'ab' * 4096}" for number in range(size)], "get 1 2 X"


def recall_all(size):
    """Asks for all of n entries."""
    return sessions(1) + files(size) + opened(1, range(2, 2 + size)), "recall 65536"


@dataclass(frozen=True)
class Kind:
    """A kind of line: what it grows with, the size at which the guard counts it, that from which `count dearest` does, and the
    largest that the limits allow. At most 1,023 requests wait, whatever the size."""

    make: Callable
    grows: str
    few: int
    size: int
    most: int

    @property
    def name(self):
        return self.make.__name__.replace("_", "-")

    @property
    def meaning(self):
        return self.make.__doc__.rstrip(".")

    def script(self, size):
        lines, last = self.make(size)
        return lines, [*lines, last]


KINDS = (
    Kind(close_served, "files and requests", 20, 80, 15000),
    Kind(close_served_behind, "files and requests", 20, 80, 15000),
    Kind(evict_truncated, "files and requests", 20, 50, 6000),
    Kind(close_asker, "requests", 100, 400, WAITING - 1),
    Kind(stale, "files", 60, 250, 60000),
    Kind(stale_beside, "files", 60, 250, 60000),
    Kind(stale_by_paths, "files", 1, 8, 1000),
    Kind(stale_by_groups, "files", 1, 8, 1000),
    Kind(rename_closed, "files", 100, 1000, 60000),
    Kind(rename_opened, "files", 60, 500, 60000),
    Kind(rename_beside, "files", 60, 500, 60000),
    Kind(renames_served, "files times requests", 100, 500, 60000),
    Kind(renames_after_depth, "files times requests", 300, 500, 60000),
    Kind(one_more, "requests", 100, 400, WAITING - 2),
    Kind(poll_all, "messages", 500, 2000, 100000),
    Kind(poll_beside, "messages", 500, 2000, 100000),
    Kind(read_values, "bytes", 4, 16, 64),
    Kind(recall_all, "entries", 100, 1000, INODES - 2),
)


def instructions(lines):
    return counting.counted([CAPD, "run"], text(lines))[0]


def of_last(name, size):
    """The instructions of the last line of a kind at a size."""
    kind = next(kind for kind in KINDS if kind.name == name)
    before, all_lines = kind.script(size)
    return instructions(all_lines) - instructions(before)
