"""Random texts of grants, and questions on them, as wide as what is written and asked: most texts are read by some release, and some by
none. Texts and paths are bytes.
"""

from dataclasses import dataclass
from random import Random

# What grants and questions are made of. Names stand often enough on both sides to be the same.
FILE_SYSTEMS = [b"cephfs", b"cephfs", b"cephfs", b"other", b"cephfs2", b"a.b_c-D"]
IDS = [0, 1, 2, 1000, 2147483647, 2147483648, 4294967295]
GIDS = [0, 1, 2, 3, 4, 10, 1000, 4294967295]
BARE_NAMES = [b"a", b"b", b"ab", b"abc", b"c.d", b"x_y", b"..", b"-"]
OTHER_NAMES = [b"a b", b"q'q", b'q"q', b"a,b", b"x=y", b"\xc3\xa4", b"\xff", b"t\tt", b"n\nn", b"c;allow", b"\\", b"*"]
PLAIN_FLAGS = [b"r", b"rw", b"rw", b"rw", b"rwp", b"rws", b"rwps", b"*", b"all"]
FLAGS = [*PLAIN_FLAGS, b"rwf", b"rwfp", b"rwfs", b"rwfps"]
BAD_FLAGS = [b"w", b"p", b"rwx", b"rwpf", b"rwsp", b"rp", b"R", b"", b"*r", b"allrw"]
NETWORKS = [b"10.0.0.0/8", b"10.1.0.0/15", b"10.1.2.3/32", b"10.0.0.0/0", b"10.0.0.0/33", b"fd00::/8", b"::/0", b"fd00::1.2.3.4/120"]
NETWORKS += [b"10.0.0.0/4294967296", b"10.0.0.0/99999999999999999999999"]
BAD_NETWORKS = [b"10.0.0.0", b"300.0.0.0/8", b"10.0.0.0/8/9", b"[::1]/8", b"10.0.0.0/", b"10.0.0.0/a", b"10.0.0/8", b"fd00::/", b"/8", b"10.0.0.0/-1"]
SPACES = [b" "] * 12 + [b"  ", b"\t", b"\n", b" \t\n"]
BAD_SPACES = [b"\r", b"\v", b"\f", b"\xa0", b"_", b""]
SEPARATORS = [b", "] * 6 + [b",", b";", b"; ", b" ; ", b"  ,  "]
BAD_SEPARATORS = [b",,", b" ", b"\t,", b",\n", b"|", b", ,"]
KINDS = ["010", "010", "04", "012"]
# The bits by which an MDS is asked for an access, as its requests have them.
MASKS = {"read": 1, "write": 2, "chmod": 2, "chown": 18, "chgrp": 34, "vxattr": 64, "snapshot": 130}


@dataclass(frozen=True)
class Text:
    """A text of grants; and each of them alone, where it was made of these and nothing is amiss."""

    text: bytes
    grants: tuple[bytes, ...]


@dataclass(frozen=True)
class Question:
    """A question as `capd explain` takes it. The number is the user or the group that the inode is to be given to; a server's mask has one
    with each access."""

    fs: bytes
    uid: int
    gid: int
    groups: tuple[int, ...]
    path: tuple[bytes, ...]
    owner: int
    group: int
    mode: str
    access: str
    number: int

    def words(self):
        """The words of the command line behind the grants."""
        access = f"{self.access}:{self.number}" if self.access in ("chown", "chgrp") else self.access
        words = [b"--fs", self.fs, *(text.encode() for text in ("--uid", f"{self.uid}", "--gid", f"{self.gid}"))]
        words += [b"--groups", ",".join(map(str, self.groups)).encode()] if self.groups else []
        words += [b"--path", b"/" + b"/".join(self.path), b"--owner", f"{self.owner}".encode(), b"--group", f"{self.group}".encode()]
        return [*words, b"--mode", self.mode.encode(), b"--access", access.encode()]

    def columns(self):
        """What `mds_answers.cc` takes, but for the addresses."""
        groups = "".join(f"{gid}," for gid in self.groups)
        asked = [self.fs.hex(), self.uid, self.gid, groups, b"/".join(self.path).hex(), self.owner, self.group, self.mode, MASKS[self.access]]
        return [*asked, self.number, self.number]


class Picks(Random):
    """Random numbers, and what is made by them. Of three texts one has flaws on purpose, and one nothing that the eleven rules don't know."""

    is_flawed = is_plain = False

    def one_in(self, count):
        return self.randrange(count) == 0

    def flaw(self, count):
        """Whether there is to be a flaw here, of so many places where there might be one."""
        return self.is_flawed and self.one_in(count)

    def text(self):
        manner = self.randrange(3)
        self.is_flawed, self.is_plain = manner == 0, manner == 1
        if self.flaw(20):
            return Text(self.choice([b"allow", b"allow ", b" allow", b"", b" ", b"allow, allow r", b"allow\n"]), ())
        count = self.choice([1, 1, 1, 2, 2, 2, 3, 3, 4, 5]) if not self.one_in(60) else self.randint(15, 18)
        grants = tuple(self.grant() for _ in range(count))
        text = grants[0]
        for grant in grants[1:]:
            text += self.choice(SEPARATORS if not self.flaw(10) else BAD_SEPARATORS) + grant
        if self.one_in(20):
            text = self.choice([b" ", b"\n", b"\t ", b"\v\f\r"]) + text + self.choice([b"", b" ", b"\r\n", b"\v"])
        if self.flaw(8):
            text += self.choice([b",", b";", b" x", b", allow", b"\xa0"])
        return Text(self.damaged(text), ()) if self.flaw(5) else Text(text, grants)

    def damaged(self, text):
        """The text with a byte of it left out, changed, or one more."""
        at = self.randrange(len(text))
        return text[:at] + self.choice([b"", b" ", b"x", b"=", b'"', b"'", b",", b"/", b"0", b"\xc3"]) + text[at + self.randrange(2) :]

    def grant(self):
        items = self.items()
        if self.one_in(20):
            self.shuffle(items)
        if self.flaw(15) and items:
            items.append(self.choice(items))
        text = b"allow" if not self.flaw(30) else self.choice([b"Allow", b"allo", b"deny"])
        flags = BAD_FLAGS if self.flaw(20) else PLAIN_FLAGS if self.is_plain else FLAGS
        for word in [self.choice(flags), *items]:
            text += self.choice(SPACES if not self.flaw(40) else BAD_SPACES) + word
        return text

    def items(self):
        """Items in the order of 18 and 20, or only such as 16 takes side by side."""
        fs = [b"fsname=" + self.fs_name()] if self.one_in(3) else []
        path = [b"path=" + self.path_value()] if self.one_in(2) else []
        squash = [b"root_squash"] if self.one_in(4) else []
        uid = [b"uid=" + self.number(IDS)] if self.one_in(2) else []
        gids = [b"gids=" + self.gids()] if self.one_in(2) and (uid or not self.is_plain) else []
        network = [(b"network " if not self.flaw(10) else b"network=") + self.network()] if self.one_in(6) and not self.is_plain else []
        way = self.randrange(5)
        if way == 0:
            return [*fs, *path, *squash, *uid, *gids, *network]
        return [*path, *uid, *(gids if uid else []), *network] if way < 3 else [*fs, *path, *squash, *network]

    def fs_name(self):
        return self.choice(FILE_SYSTEMS) if not self.flaw(10) else self.choice([b"*", b"", b"all", b"x" * 64, b"x" * 65, b"a/b"])

    def number(self, known):
        if self.flaw(20):
            return self.choice([b"4294967296", b"99999999999999999999", b"-1", b"", b"1x", b"0x1", b"+1"])
        return self.choice([b"", b"", b"", b"0", b"000"]) + str(self.choice(known)).encode()

    def gids(self):
        count = self.choice([1, 1, 2, 2, 3, 4]) if not self.one_in(30) else self.randint(14, 18)
        return b",".join(self.number(GIDS) for _ in range(count))

    def network(self):
        return self.choice(NETWORKS if not self.one_in(3) else BAD_NETWORKS)

    def names(self, most):
        """The names of a path, the first of which are few."""
        return [self.choice(BARE_NAMES[: 2 + 2 * depth] if not self.one_in(10) else OTHER_NAMES) for depth in range(self.randint(0, most))]

    def path_value(self):
        """A path as a grant has it: with slashes too many, and in quotes or bare."""
        names = self.names(3)
        path = b"/".join(names)
        if self.one_in(12):
            path = path.replace(b"/", b"//", 1)
        path = self.choice([b"/", b"/", b"/", b"", b"//"]) + path + self.choice([b""] * 5 + [b"/", b"//"])
        quotes = [quote for quote in (b'"', b"'") if quote not in path]
        is_bare = all(name in BARE_NAMES for name in names) and path != b""
        quote = b"" if is_bare and not self.one_in(3) else self.choice(quotes or [b'"'])
        return quote + path + quote

    def question(self, text):
        """A question on a text, whose numbers are often those in it."""
        access = self.choice([*MASKS, "write", "read"])
        mode = f"{self.choice([0o777, 0o700, 0o640, 0o600, 0o444, 0o222, 0o070, 0o007, 0o060, 0, self.randrange(0o10000)]):04o}"
        groups = tuple(self.choice(GIDS) for _ in range(self.choice([0, 0, 1, 2, 3, 4]) if not self.one_in(15) else 16))
        uid, gid = self.number_in(text, b"uid=", IDS), self.number_in(text, b"gids=", GIDS)
        return Question(
            fs=self.choice(FILE_SYSTEMS),
            uid=uid,
            gid=gid,
            groups=tuple(sorted(groups)) if self.one_in(2) else groups,
            path=tuple(self.inode_path(text)),
            owner=uid if self.one_in(2) else self.choice(IDS),
            group=self.choice([gid, *groups]) if self.one_in(2) else self.choice(GIDS),
            mode=self.choice(KINDS) + mode,
            access=access,
            number=self.choice([uid, gid, *groups, self.choice(IDS)]),
        )

    def number_in(self, text, word, others):
        """The number behind such a word in the text, or another."""
        digits = self.choice(text.split(word)[1:] or [b""])[:10].split(b" ")[0].split(b",")[0]
        return int(digits) if digits.isdigit() and int(digits) < 1 << 32 and not self.one_in(3) else self.choice(others)

    def inode_path(self, text):
        """The names of an inode: those of a path in the text, with some more behind it or a longer last one, or others."""
        if self.one_in(3) or b"path=" not in text:
            return self.names(5)
        value = self.choice(text.split(b"path=")[1:])
        value = value[1:].split(value[:1])[0] if value[:1] in (b'"', b"'") else value.split(b" ")[0].split(b",")[0].split(b";")[0]
        names = [name[:255] for name in value.split(b"/") if name and b"\x00" not in name][:20]
        if self.one_in(4) and names:
            return [*names[:-1], names[-1][:254] + b"b"]
        return [*names, *self.names(2)]
