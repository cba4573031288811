"""The scripts of tests/refused, with what is answered to each line. tests/cut_short cuts them short.

In the texts below an answer stands behind ` => `, with ` / ` between its lines. Behind the first of them stands what the row of the history
says too: the requests of earlier lines that the event ended. Clients 1 and 2 may do all, 3 all below one directory alone, and the grant
of 4 is for its user, so that the mode of a file counts.
"""

from collections.abc import Iterator
from dataclasses import dataclass

SESSIONS = """
session 1 1000 1000 - allow rw => done
session 2 1000 1000 - allow rw => done
session 3 1000 1000 - allow rw path=/n1000000 => done
"""

# The first client has a file for itself and gives way to the other, then both read it, and then the first is alone.
ROUND = """
create 1 1 n{number} 0755 => ino {file}
open 1 {file} rw => caps 1 pFsxcrwb
open 2 {file} r => caps 1 p
poll 1 9 => messages 1 / caps {file} 2 pFrw
ack 1 {file} 2 => done
poll 2 9 => messages 1 / caps {file} 2 pFr
poll 1 9 => messages 0
release 1 {file} Fxw => refused NotHeld
release 1 {file} Fw => done
poll 1 9 => messages 1 / caps {file} 3 pFscr
poll 2 9 => messages 1 / caps {file} 3 pFscr
want 2 {file} p => caps 4 p
ack 2 {file} 4 => done
poll 1 9 => messages 1 / caps {file} 4 pFsxcrb
"""

# A change waits until two clients have given up what they cache of it, and the file is moved away before, so that who asked may not make
# it any more. Then attributes come, go and are read, and one more waits for the other client.
WAITING = """
mkdir 1 1 n1000000 0755 => ino {tenant}
mkdir 1 1 n2000000 0755 => ino {other}
create 1 {tenant} n3000000 0755 => ino {waiting}
open 1 {waiting} r => caps 1 pFscr
want 1 {waiting} As => caps 2 pAsFscr
open 2 {waiting} r => caps 1 pFscr
want 2 {waiting} As => caps 2 pAsFscr
alter 3 {waiting} chmod 0600 => waiting 1
poll 1 9 => messages 1 / caps {waiting} 3 pFscr
poll 2 9 => messages 1 / caps {waiting} 3 pFscr
rename 1 {waiting} {other} moved => done
ack 1 {waiting} 3 => done
ack 2 {waiting} 3 => done; ended 1 denied chmod 1:4
poll 3 9 => messages 1 / ended 1 denied chmod 1:4
poll 1 9 => messages 1 / caps {waiting} 4 pAsFscr
poll 2 9 => messages 1 / caps {waiting} 4 pAsFscr
alter 1 {waiting} setx ceph.quota 636570682e71756f7461 => denied vxattr 1:7
alter 1 {waiting} setx user.a 757365722e61 => done
get 1 {waiting} X => attr X 1 user.a=757365722e61
alter 1 {waiting} rmx user.b => refused NoXattr
get 1 {waiting} F => attr F 0 0
get 1 {waiting} L => attr L 1
want 2 {waiting} Xs => caps 5 pAsXsFscr
alter 1 {waiting} setx user.c 757365722e63 => waiting 7
poll 2 9 => messages 1 / caps {waiting} 6 pAsFscr
ack 2 {waiting} 6 => done; ended 7 done
poll 1 9 => messages 1 / ended 7 done
poll 2 9 => messages 1 / caps {waiting} 7 pAsXsFscr
"""

# A directory goes to where the third client may do all, and there it and another have two files open. It is moved out, so that the third
# loses all on both files, and back in, which returns what it did not acknowledge; then out again, and it acknowledges, for which a
# change of the mode has waited.
LOSING_BY_MOVES = """
mkdir 1 1 n4000000 0755 => ino {moved}
create 1 {moved} n5000000 0755 => ino {beside}
rename 1 {moved} {tenant} moved => done
open 3 {beside} r => caps 1 pFscr
open 2 {beside} r => caps 1 pFscr
create 1 {moved} n6000000 0755 => ino {losing}
open 3 {losing} rw => caps 1 pFsxcrwb
want 3 {losing} AsFrw => caps 2 pAsFsxcrwb
open 2 {losing} r => caps 1 p
poll 3 9 => messages 1 / caps {losing} 3 pAsFrw
ack 3 {losing} 3 => done
poll 2 9 => messages 1 / caps {losing} 2 pFr
rename 1 {moved} 1 moved => done
poll 3 9 => messages 2 / caps {beside} 2 - / caps {losing} 4 -
rename 1 {moved} {tenant} moved => done
poll 3 9 => messages 2 / caps {beside} 3 pFscr / caps {losing} 5 pAsFr
ack 3 {losing} 5 => done
poll 3 9 => messages 1 / caps {losing} 6 pAsFrw
rename 1 {moved} 1 moved => done
alter 1 {losing} chmod 0640 => waiting 12
poll 3 9 => messages 2 / caps {beside} 4 - / caps {losing} 7 -
ack 3 {losing} 7 => done; ended 12 done
poll 1 9 => messages 1 / ended 12 done
poll 2 9 => messages 1 / caps {losing} 3 pFscr
open 3 {losing} r => denied read 1:4
"""

# The fourth client loses all by a mode, and gets it back by another before it acknowledges. Then a change that waits for what another
# client caches takes from it that it writes, which it releases by itself.
LOSING_BY_MODES = """
session 4 1000 1000 - allow rw uid=1000 => done
open 4 {losing} rw => caps 1 pFr
poll 2 9 => messages 1 / caps {losing} 4 pFr
ack 2 {losing} 4 => done
poll 4 9 => messages 1 / caps {losing} 2 pFrw
alter 1 {losing} chmod 0000 => done
poll 4 9 => messages 1 / caps {losing} 3 -
alter 1 {losing} chmod 0600 => done
poll 4 9 => messages 1 / caps {losing} 4 pFr
ack 4 {losing} 4 => done
poll 4 9 => messages 1 / caps {losing} 5 pFrw
want 2 {losing} AsFr => caps 5 pAsFr
alter 1 {losing} chmod 0400 => waiting 15
poll 2 9 => messages 1 / caps {losing} 6 pFr
ack 2 {losing} 6 => done; ended 15 done
poll 1 9 => messages 1 / ended 15 done
poll 4 9 => messages 1 / caps {losing} 6 pFr
release 4 {losing} Fw => done
poll 4 9 => messages 1 / caps {losing} 7 pFscr
poll 2 9 => messages 1 / caps {losing} 7 pAsFr
"""

# The directory is moved in once more, which returns what the third still holds of the one file, and it opens the other. Its grants go,
# and with them all of both files, of which new ones return what it may read. At last they go again, and its session ends before it
# acknowledges.
LOSING_BY_GRANTS = """
rename 1 {moved} {tenant} moved => done
open 3 {losing} rw => caps 1 pFr
poll 3 9 => messages 1 / caps {beside} 5 pFscr
poll 4 9 => messages 1 / caps {losing} 8 pFr
ack 4 {losing} 8 => done
poll 3 9 => messages 1 / caps {losing} 2 pFrw
regrant 3 none => done
poll 3 9 => messages 2 / caps {beside} 6 - / caps {losing} 3 -
regrant 3 allow r => done
poll 3 9 => messages 2 / caps {beside} 7 pFscr / caps {losing} 4 pFr
ack 3 {losing} 4 => done
poll 3 9 => messages 1 / caps {losing} 5 pFscr
poll 4 9 => messages 1 / caps {losing} 9 pFscr
regrant 3 none => done
close 3 => done
poll 2 9 => messages 0
poll 4 9 => messages 0
"""

# What was left alone longest is asked back. Then the first client is thrown out while two changes wait for what it holds, of which one is
# its own, and the other's may not be made any more; it comes back, is stale for a while, in which it gets other grants, and the other
# ends its session.
ENDING = """
recall 1 => recalled 1:2
poll 1 9 => messages 1 / recall 2
release 2 {waiting} As => done
alter 2 {waiting} chmod 0640 => waiting 17
alter 1 {waiting} chmod 0600 => waiting 18
regrant 2 allow r => done
evict 1 => done; ended 18 dropped; ended 17 denied chmod 1:5
poll 2 9 => messages 1 / ended 17 denied chmod 1:5
session 1 1000 1000 - allow rw => refused Blocklisted
unblock 1 => done
session 1 1000 1000 - allow rw => done
open 1 {waiting} r => caps 1 pFscr
stale 1 => done
regrant 1 allow r => done
renew 1 => done
close 2 => done
session 2 1000 1000 - allow rw => done
poll 2 9 => messages 0
"""

# What readers see changes with nearly each event. Behind the answer stands the view: what each pass is told of whether client 1, 2, 3 and 4
# may read and write inode 1, 2, 3 and 4, client by client. A letter says allowed, or why not: path, no write or mode bits, no grants, no
# session, no inode, or that it is gone. Clients come, two directories and a file are made, and the file is moved to where the third client may do nothing.
# Grants and a mode change. A directory has a snapshot for a while and goes; where memory for grants that change in that while is refused,
# the whole tree is copied, with the snapshot, and the directory has to go from that copy too. The file is unlinked while it is open, and
# released; then clients go.
PUBLISHED = """
session 1 1000 1000 - allow rws => done => aaiiiiiissssssssssssssssssssssss
session 2 1000 1000 - allow rw => done => aaiiiiiiaaiiiiiissssssssssssssss
session 3 1000 1000 - allow rw path=/a => done => aaiiiiiiaaiiiiiippiiiiiissssssss
mkdir 1 1 a 0755 => ino 2 => aaaaiiiiaaaaiiiippaaiiiissssssss
mkdir 1 1 b 0755 => ino 3 => aaaaaaiiaaaaaaiippaappiissssssss
create 1 2 x 0755 => ino 4 => aaaaaaaaaaaaaaaappaappaassssssss
rename 1 4 3 x => done => aaaaaaaaaaaaaaaappaappppssssssss
regrant 2 allow r => done => aaaaaaaaawawawawppaappppssssssss
regrant 2 none => done => aaaaaaaannnnnnnnppaappppssssssss
session 4 1000 1000 - allow rw uid=1000 => done => aaaaaaaannnnnnnnppaappppamaaaaaa
alter 1 4 chmod 0400 => done => aaaaaaaannnnnnnnppaappppamaaaaam
mksnap 1 2 s1 => done => aaaaaaaannnnnnnnppaappppamaaaaam
regrant 2 allow r => done => aaaaaaaaawawawawppaappppamaaaaam
rmsnap 1 2 s1 => done => aaaaaaaaawawawawppaappppamaaaaam
rmdir 1 2 => done => aaiiaaaaawiiawawppiippppamiiaaam
open 1 4 rw => caps 1 pFsxcrwb => aaiiaaaaawiiawawppiippppamiiaaam
unlink 1 4 => done => aaiiaaggawiiawggppiippggamiiaagg
release 1 4 pFsxcrwb => done => aaiiaaiiawiiawiippiippiiamiiaaii
evict 3 => done => aaiiaaiiawiiawiissssssssamiiaaii
unblock 3 => done => aaiiaaiiawiiawiissssssssamiiaaii
close 2 => done => aaiiaaiissssssssssssssssamiiaaii
"""

# ---- short scripts, each on a server of its own: one client alone with a file, and what comes behind that

ALONE = """
session 1 10 10 - allow rw => done
session 2 20 20 - allow rw => done
create 1 1 f 0644 => ino 2
open 1 2 rw => caps 1 pFsxcrwb
"""

# Another one opens it.
SHARED = """
open 2 2 r => caps 1 p
poll 1 9 => messages 1 / caps 2 2 pFrw
ack 1 2 2 => done
poll 2 9 => messages 1 / caps 2 2 pFr
poll 1 9 => messages 0
"""

# What it acknowledges before it is told, by an old number, by one that is not given yet, and twice.
ACKNOWLEDGED = """
open 2 2 r => caps 1 p
ack 1 2 2 => refused BadSeq
poll 1 9 => messages 1 / caps 2 2 pFrw
ack 1 2 1 => refused OldSeq 2
ack 1 2 3 => refused BadSeq
ack 1 2 2 => done
ack 1 2 2 => refused NothingToAck
"""

# It unlinks the file, and releases it.
RELEASED = """
unlink 1 2 => done
get 1 2 A => refused Gone
release 1 2 pFsxcrwb => done
get 1 2 A => refused NoIno
create 1 1 f 0644 => ino 3
"""

# It changes the file by itself, and another one asks for what it changed.
FLUSHED = """
want 1 2 pAsxFsxcrwb => caps 2 pAsxFsxcrwb
flush 1 2 chmod 0600 => done
flush 1 2 setx user.a 01 => refused NotHeld
flush 2 2 size 5 => refused NoEntry
get 2 2 A => waiting 1
poll 1 9 => messages 1 / caps 2 3 pAsFsxcrwb
ack 1 2 3 => done; ended 1 attr A 10 10 0600
poll 2 9 => messages 1 / ended 1 attr A 10 10 0600
poll 1 9 => messages 1 / caps 2 4 pAsxFsxcrwb
"""

# Another one changes its size while it caches.
SIZED = """
alter 2 2 size 5 => waiting 1
get 2 2 F => waiting 2
poll 1 9 => messages 1 / caps 2 2 pFc
ack 1 2 2 => done; ended 1 done; ended 2 attr F 5 0
poll 2 1 => messages 1 / ended 1 done
poll 2 9 => messages 1 / ended 2 attr F 5 0
poll 1 9 => messages 2 / caps 2 3 pFsxcrwb / size 2 5
poll 1 9 => messages 0
"""

# It unlinks the file, and has it open.
UNLINKED = """
unlink 1 2 => done
poll 1 9 => messages 1 / caps 2 2 p
ack 1 2 2 => done
poll 1 9 => messages 0
release 1 2 p => done
get 1 2 A => refused NoIno
"""

# It loses all grants.
UNGRANTED = """
regrant 1 none => done
poll 1 9 => messages 1 / caps 2 2 -
ack 1 2 2 => done
ack 1 2 2 => refused NoEntry
open 2 2 r => caps 1 pFscr
"""

# Two hold what a third is to change in the directory that it may work in.
HOLDING = """
session 1 10 10 - allow rw => done
session 2 20 20 - allow rw => done
session 3 30 30 - allow rw path=/a => done
mkdir 1 1 a 0755 => ino 2
mkdir 1 1 b 0755 => ino 3
create 1 2 x 0644 => ino 4
open 1 4 r => caps 1 pFscr
want 1 4 pAs => caps 2 pAsFscr
open 2 4 r => caps 1 pFscr
want 2 4 pAs => caps 2 pAsFscr
alter 3 4 chmod 0600 => waiting 1
poll 1 9 => messages 1 / caps 4 3 pFscr
poll 2 9 => messages 1 / caps 4 3 pFscr
"""

# The file is moved away before they acknowledge.
MOVED_AWAY = """
rename 1 4 3 x => done
ack 1 4 3 => done
ack 2 4 3 => done; ended 1 denied chmod 1:4
poll 3 9 => messages 1 / ended 1 denied chmod 1:4
poll 1 9 => messages 1 / caps 4 4 pAsFscr
"""

# One of them is thrown out before, and comes back.
THROWN_OUT = """
ack 1 4 3 => done
evict 2 => done; ended 1 done
poll 3 9 => messages 1 / ended 1 done
get 3 4 A => attr A 10 10 0600
session 2 20 20 - allow rw => refused Blocklisted
unblock 2 => done
unblock 2 => refused NotBlocked
session 2 20 20 - allow rw => done
session 2 20 20 - allow rw => refused SessionOpen
"""

# What was left alone longest is asked back.
RECALLED = """
session 1 10 10 - allow rw => done
create 1 1 f 0644 => ino 2
create 1 1 g 0644 => ino 3
create 1 1 h 0644 => ino 4
open 1 2 r => caps 1 pFscr
open 1 3 r => caps 1 pFscr
open 1 4 r => caps 1 pFscr
want 1 2 pFr => caps 1 pFscr
recall 2 => recalled 1:3 1:4
recall 0 => recalled -
recall 9 => recalled 1:3 1:4 1:2
poll 1 2 => messages 2 / recall 2 / recall 3
poll 1 9 => messages 1 / recall 4
"""

# Attributes come, go and are read.
ATTRIBUTES = """
session 1 10 10 - allow rw => done
create 1 1 f 0644 => ino 2
alter 1 2 setx ceph.quota.max_bytes 3130 => denied vxattr 1:7
alter 1 2 setx user.a 3130 => done
get 1 2 X => attr X 1 user.a=3130
alter 1 2 rmx user.b => refused NoXattr
get 1 2 F => attr F 0 0
get 1 2 L => attr L 1
"""

# An attribute waits for another client. Behind the answer of the last line stands that where memory was refused when it was served.
ATTRIBUTE_THAT_WAITS = """
session 1 10 10 - allow rw => done
session 2 20 20 - allow rw => done
create 1 1 f 0644 => ino 2
open 2 2 r => caps 1 pFscr
want 2 2 pXs => caps 2 pXsFscr
alter 1 2 setx user.a 3130 => waiting 1
poll 2 9 => messages 1 / caps 2 3 pFscr
ack 2 2 3 => done; ended 1 done
poll 1 9 => messages 1 / ended 1 done
get 1 2 X => attr X 1 user.a=3130 => attr X 0
"""

# One reads, and gets other grants and its own again.
REGRANTED = """
session 1 10 10 - allow rw => done
session 2 20 20 - allow r => done
create 1 1 f 0644 => ino 2
open 1 2 r => caps 1 pFscr
open 2 2 r => caps 1 pFscr
want 2 2 pFrw => caps 1 pFscr
poll 1 9 => messages 0
open 2 2 w => denied write 1:5
regrant 2 allow rw => done
poll 1 9 => messages 1 / caps 2 2 pFr
poll 2 9 => messages 1 / caps 2 2 pFr
ack 1 2 2 => done
ack 2 2 2 => done
poll 2 9 => messages 1 / caps 2 3 pFrw
regrant 2 allow r => done
alter 2 2 size 1 => denied write 1:5
poll 2 9 => messages 1 / caps 2 4 pFr
ack 2 2 4 => done
poll 1 9 => messages 1 / caps 2 3 pFscr
regrant 9 none => refused NoSession
"""

# A directory is moved out of where one may work, and back.
MOVED_AND_BACK = """
session 1 10 10 - allow rw => done
session 3 30 30 - allow rw path=/a => done
mkdir 1 1 a 0755 => ino 2
mkdir 1 1 b 0755 => ino 3
mkdir 1 2 d 0755 => ino 4
create 1 4 x 0644 => ino 5
open 3 5 r => caps 1 pFscr
rename 1 4 3 d => done
want 3 5 pAsFscr => caps 2 -
rename 1 4 2 d => done
poll 3 9 => messages 1 / caps 5 3 pAsFscr
ack 3 5 3 => refused NothingToAck
"""

# What can't be moved, or removed.
STAYING = """
session 1 10 10 - allow rw => done
mkdir 1 1 a 0755 => ino 2
mkdir 1 2 b 0755 => ino 3
rename 1 2 3 c => refused Loop
rename 1 1 2 z => refused Root
rename 1 3 2 b => refused Exists
rmdir 1 2 => refused NotEmpty
"""

WORKED = {
    "shared": ALONE + SHARED,
    "acknowledged": ALONE + ACKNOWLEDGED,
    "given-back": ALONE + RELEASED,
    "flushed": ALONE + FLUSHED,
    "sized": ALONE + SIZED,
    "unlinked": ALONE + UNLINKED,
    "ungranted": ALONE + UNGRANTED,
    "moved-away": HOLDING + MOVED_AWAY,
    "thrown-out": HOLDING + THROWN_OUT,
    "staying": STAYING,
    "recalled": RECALLED,
    "attributes": ATTRIBUTES,
    "attribute-that-waits": ATTRIBUTE_THAT_WAITS,
    "regranted": REGRANTED,
    "moved-and-back": MOVED_AND_BACK,
}

# What is told of all questions before the first event.
NO_SESSION = "s" * 32


@dataclass(frozen=True)
class Step:
    """A line, the lines that answer it, the requests of earlier lines that it ended, as its row says them, and what stands behind that:
    what is told of all questions, or the answer where a request of an earlier line found no memory."""

    line: str
    answer: list[str]
    ended: str = ""
    behind: str = ""


def steps(text, **names) -> Iterator[Step]:
    for line in filter(None, text.format(**names).splitlines()):
        said, answer, *behind = line.split(" => ")
        first, *others = answer.split(" / ")
        first, *ended = first.split("; ")
        yield Step(said, [first, *(f"  {other}" for other in others)], "".join(f"; {one}" for one in ended), *behind)


def worked() -> Iterator[tuple[str, list[Step]]]:
    """The short scripts, by their names."""
    for name, text in WORKED.items():
        yield name, list(steps(text))


def retried(files) -> Iterator[Step]:
    """The events of clients that share so many files, one after the other, then wait for one more, lose what they hold of others, and end
    their sessions."""
    yield from steps(SESSIONS)
    for number in range(files):
        yield from steps(ROUND, number=number, file=number + 2)
    places = ("tenant", "other", "waiting", "moved", "beside", "losing")
    inodes = {name: files + 2 + place for place, name in enumerate(places)}
    for scene in (WAITING, LOSING_BY_MOVES, LOSING_BY_MODES, LOSING_BY_GRANTS, ENDING):
        yield from steps(scene, **inodes)


def published() -> Iterator[Step]:
    """The events of which each changes what readers see, or could."""
    return steps(PUBLISHED)
