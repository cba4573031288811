"""Work of a core as lines of a script, with what `capd run` has to answer to each: how its instructions and its memory are counted.

A word such as `open-100` or `lookup-100-deep` names a piece of work beside so many inodes. Client 1 makes them, all in the root or in
chains of directories; but in work on trees client 3 then opens each. What is done behind that is done as often as is asked for, and in
places that lie spread over all inodes.
"""

import sys
from collections.abc import Callable, Iterable, Iterator
from dataclasses import dataclass

from . import counting
from .places import CAPD

# Who makes all inodes, who reads what the first writes, and who has each inode open.
MAKER, READER, HOLDER = 1, 2, 3
ROOT = 1
# How many directories a chain has.
CHAIN = 16
# How far apart two operations are that follow each other. It shares no divisor with a size.
STRIDE = 7919
# How many files stand there to be opened, beside the inodes.
FILES = 1024
# How many open files the directory has that is moved beside other inodes.
BELOW = 100

# A line, and what is answered to it.
Step = tuple[str, str]


# ---- steps


def session(client) -> Step:
    return f"session {client} 1000 1000 - allow rw", "done"


def create(directory, name, ino) -> Step:
    return f"create {MAKER} {directory} {name} 0755", f"ino {ino}"


def mkdir(directory, name, ino) -> Step:
    return f"mkdir {MAKER} {directory} {name} 0755", f"ino {ino}"


def opened(client, ino) -> Step:
    return f"open {client} {ino} r", "caps 1 pFscr"


def told(client, ino, seq, caps) -> Step:
    """A poll of a client whose one message is a change."""
    return f"poll {client} 9", f"messages 1\n  caps {ino} {seq} {caps}"


def inode_at(place):
    """The number of the inode that was made at a place, behind the root."""
    return ROOT + 1 + place


def spread(turn, places):
    """A place for an operation. Those that follow each other come to each place once before one comes again."""
    return turn * STRIDE % places


# ---- what stands there before


def flat(size) -> Iterator[Step]:
    """So many files in the root."""
    yield session(MAKER)
    for place in range(size):
        yield create(ROOT, f"n{place}", inode_at(place))


def directory_of(place):
    """Where the inode at a place stands that is part of a chain."""
    return ROOT if place % CHAIN == 0 else inode_at(place - 1)


def deep(size) -> Iterator[Step]:
    """So many directories in chains, each in the one before it and the first in the root."""
    yield session(MAKER)
    for place in range(size):
        yield mkdir(directory_of(place), f"n{place}", inode_at(place))


def held(size) -> Iterator[Step]:
    """So many files in the root, each of which a client has open."""
    yield from flat(size)
    yield session(READER)
    yield session(HOLDER)
    for place in range(size):
        yield opened(HOLDER, inode_at(place))


def with_files(size) -> Iterator[Step]:
    """The same, and files that nobody has open."""
    yield from held(size)
    for place in range(size, size + FILES):
        yield create(ROOT, f"n{place}", inode_at(place))


def shared(size) -> Iterator[Step]:
    """The same as `held`, and a file that one client writes, and another one has open with the pin alone."""
    ino = inode_at(size)
    yield from held(size)
    yield create(ROOT, f"n{size}", ino)
    yield opened(READER, ino)
    yield f"release {READER} {ino} Fscr", "done"
    yield f"open {MAKER} {ino} w", "caps 1 pFxwb"


def filled(first, count) -> Iterator[Step]:
    """Two directories in the root, of which this inode is the first, and in that one a third, with so many files that are open."""
    yield mkdir(ROOT, "here", first)
    yield mkdir(ROOT, "there", first + 1)
    yield mkdir(first, "moved", first + 2)
    for ino in range(first + 3, first + 3 + count):
        yield create(first + 2, f"f{ino}", ino)
        yield opened(HOLDER, ino)


def with_directory(size) -> Iterator[Step]:
    """The same as `held`, and the directories with their open files."""
    yield from held(size)
    yield from filled(inode_at(size), BELOW)


def directory_alone(size) -> Iterator[Step]:
    """The directories with so many open files, and nothing beside them."""
    yield session(MAKER)
    yield session(HOLDER)
    yield from filled(inode_at(0), size)


# ---- what is done each time, beside so many inodes


def opening(size, turn) -> Iterator[Step]:
    """An opening, to read, of a file that nobody has open."""
    yield opened(MAKER, inode_at(size + turn))


def revocation(size, turn) -> Iterator[Step]:
    """A round of six lines on one file: what its writer holds is revoked, and comes back."""
    ino, seq = inode_at(size), 2 * turn + 2
    yield f"want {READER} {ino} pFr", f"caps {turn + 1} p"
    yield told(MAKER, ino, seq, "pFw")
    yield f"ack {MAKER} {ino} {seq}", "done"
    yield told(READER, ino, turn + 2, "pFr")
    yield f"release {READER} {ino} Fr", "done"
    yield f"want {MAKER} {ino} pFxwb", f"caps {seq + 1} pFxwb"


def wish(size, turn) -> Iterator[Step]:
    """A want to write one of the inodes that are open, and a release of that."""
    ino = inode_at(spread(turn, size))
    yield f"want {HOLDER} {ino} pFrw", f"caps {turn // size + 2} pFscrw"
    yield f"release {HOLDER} {ino} Fw", "done"


def reopening(size, turn) -> Iterator[Step]:
    """A release of one of the inodes that are open, whole, and an opening of it."""
    ino = inode_at(spread(turn, size))
    yield f"release {HOLDER} {ino} p", "done"
    yield opened(HOLDER, ino)


def sharing(size, turn) -> Iterator[Step]:
    """A session of a client more, which opens all inodes that others have open."""
    client = HOLDER + 1 + turn
    yield session(client)
    for place in range(size):
        yield opened(client, inode_at(place))


def polling(_size, _turn) -> Iterator[Step]:
    """A poll of the client that has the inodes open, to which no message is due."""
    yield f"poll {HOLDER} 9", "messages 0"


def mode_change(size, turn) -> Iterator[Step]:
    """A change of the mode of one of the inodes that are open, which is served in its step."""
    yield f"alter {MAKER} {inode_at(spread(turn, size))} chmod {'0755' if turn % 2 else '0700'}", "done"


def moved(first, turn) -> Iterator[Step]:
    """The move of the directory of `filled`, out of the first directory or back."""
    yield f"rename {MAKER} {first + 2} {first if turn % 2 else first + 1} moved", "done"


def move_beside(size, turn) -> Iterator[Step]:
    """A move of a directory in which a client has 100 files open."""
    return moved(inode_at(size), turn)


def move_alone(_size, turn) -> Iterator[Step]:
    """A move of a directory in which a client has so many files open."""
    return moved(inode_at(0), turn)


def flat_lookup(size, turn) -> Iterator[Step]:
    """A lookup in the root."""
    place = spread(turn, size)
    yield f"lookup {MAKER} {ROOT} n{place}", f"ino {inode_at(place)}"


def deep_lookup(size, turn) -> Iterator[Step]:
    """A lookup in one of the chains."""
    place = spread(turn, size)
    yield f"lookup {MAKER} {directory_of(place)} n{place}", f"ino {inode_at(place)}"


def flat_creation(size, turn) -> Iterator[Step]:
    """A creation in the root."""
    yield create(ROOT, f"n{size + turn}", inode_at(size + turn))


def deep_creation(size, turn) -> Iterator[Step]:
    """A creation in the last directory but one of a chain, so that the file stands as deep as the last."""
    chain = spread(turn, size // CHAIN)
    yield create(inode_at(chain * CHAIN + CHAIN - 2), f"n{size + turn}", inode_at(size + turn))


@dataclass(frozen=True)
class Work:
    """A piece of work: what stands there before, beside so many inodes, and what is done each time."""

    before: Callable[[int], Iterable[Step]]
    once: Callable[[int, int], Iterable[Step]]


WORKS = {
    ("open",): Work(with_files, opening),
    ("revoke",): Work(shared, revocation),
    ("want",): Work(held, wish),
    ("release",): Work(held, reopening),
    ("share",): Work(held, sharing),
    ("poll",): Work(held, polling),
    ("alter",): Work(held, mode_change),
    ("rename",): Work(with_directory, move_beside),
    ("carry",): Work(directory_alone, move_alone),
    ("lookup", "flat"): Work(flat, flat_lookup),
    ("lookup", "deep"): Work(deep, deep_lookup),
    ("create", "flat"): Work(flat, flat_creation),
    ("create", "deep"): Work(deep, deep_creation),
}


def steps(word, times) -> Iterator[Step]:
    """The script of a word, in which its work is done so many times."""
    verb, size, *layout = word.split("-")
    work, size = WORKS[verb, *layout], int(size)
    yield from work.before(size)
    for turn in range(times):
        yield from work.once(size, turn)


def texts(word, times):
    """The script, and all that is to be answered."""
    lines, answers = zip(*steps(word, times))
    return tuple("".join(f"{it}\n" for it in them) for them in (lines, answers))


def compare(word, wanted, written):
    """Ends where a line was answered otherwise: the work was not what its word says."""
    if written == wanted:
        return
    pairs = zip(wanted.splitlines(), written.splitlines())
    first = next((f"{answer}, and not {it}" for it, answer in pairs if it != answer), f"{written.count(chr(10))} lines were answered")
    sys.exit(f"{word} was answered otherwise: {first}")


def counted(word, times):
    """The instructions of the whole program."""
    script, wanted = texts(word, times)
    found, written = counting.counted([CAPD, "run"], script)
    compare(word, wanted, written)
    return found


def of_one(word, few, many):
    """The instructions of what is done once, with the reading of its lines and the writing of their answers: the difference of two
    whole counts, parted among those that are between."""
    return (counted(word, many) - counted(word, few)) / (many - few)


def peak(word, times):
    """The most memory that the program had beside the text of the script, in bytes. The system counts by some pages at once, so the
    middle of three runs."""
    script, wanted = texts(word, times)
    return sorted(told_peak(word, script, wanted) for _ in range(3))[1] - len(script)


def told_peak(word, script, wanted):
    found, written = counting.told_peak([CAPD, "run"], script)
    compare(word, wanted, written)
    return found
