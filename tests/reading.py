"""Reads grant texts and lines of scripts by the rules of docs/GRANTS.md and docs/SCRIPTS.md, for tests/cut_short.

It says of a text which fault it has first, or that it has none, and how the grants and events of one that has none are written.
"""

import re

# ---- grants

WHITE, SEPARATORS = b" \t\n", b",;"
FLAGS = {b"r", b"rw", b"rwp", b"rws", b"rwps", b"*", b"all"}
ALL = {b"*", b"all"}
MOST_GRANTS, MOST_GIDS, MOST_NAMES, LONGEST_NAME = 16, 16, 32, 255
FS_NAME = re.compile(rb"[A-Za-z0-9_.-]{1,64}")
BARE_PATH = re.compile(rb"[A-Za-z0-9_./-]+")


class Fault(Exception):
    """A kind, and for grants a place."""


def is_number(text, bits):
    return re.fullmatch(rb"[0-9]+", text) is not None and int(text) < 1 << bits


def plain_end(text, at, is_gids=False):
    """Where a word ends that goes on at this place."""
    while at < len(text) and text[at] not in WHITE + SEPARATORS:
        at += 1
        # Of a gids item a comma belongs to the word if a digit is behind it.
        while is_gids and text[at : at + 1] == b"," and text[at + 1 : at + 2].isdigit():
            at += 1
    return at


class Words:
    """The words of a grant text, from the left."""

    def __init__(self, text):
        self.text, self.at = text, 0

    def skip_white(self):
        while self.at < len(self.text) and self.text[self.at] in WHITE:
            self.at += 1

    def word(self):
        """The next word of the grant and its place. It is empty where the grant has no more."""
        self.skip_white()
        begin, rest = self.at, self.text[self.at :]
        if rest[:6] in (b'path="', b"path='"):
            close = self.text.find(rest[5:6], begin + 6)
            self.at = plain_end(self.text, close + 1) if close >= 0 else len(self.text)
        else:
            self.at = plain_end(self.text, begin, rest.startswith(b"gids="))
        return self.text[begin : self.at], begin

    def separator(self):
        """Whether another grant has to follow. The separator is taken."""
        self.skip_white()
        self.at += 1
        return self.at <= len(self.text)


def read_fs(value):
    if value != b"*" and not FS_NAME.fullmatch(value):
        raise Fault("BadItem")
    return None if value == b"*" else value


def read_path(value):
    quote = value[:1] if value[:1] in (b'"', b"'") else b""
    if quote:
        close = value.find(quote, 1)
        if close < 0:
            raise Fault("OpenQuote")
        if close + 1 < len(value):
            raise Fault("BadItem")
        value = value[1:close]
        is_right = value and all(byte >= 32 and byte != 127 for byte in value)
    else:
        is_right = BARE_PATH.fullmatch(value)
    names = [name for name in value.split(b"/") if name]
    if not is_right or len(names) > MOST_NAMES or any(len(name) > LONGEST_NAME for name in names):
        raise Fault("BadPath")
    return names


def read_uid(value):
    if not is_number(value, 32):
        raise Fault("BadNumber")
    return int(value)


def read_gids(value):
    gids = value.split(b",")
    if not all(is_number(gid, 32) for gid in gids):
        raise Fault("BadNumber")
    if len(gids) > MOST_GIDS:
        raise Fault("TooMany")
    return [int(gid) for gid in gids]


ITEMS = {b"fsname": read_fs, b"path": read_path, b"uid": read_uid, b"gids": read_gids}


def read_item(word, grant):
    name, equals, value = word.partition(b"=")
    if word == b"network":
        raise Fault("LeftOut")
    if word != b"root_squash" and not (equals and name in ITEMS):
        raise Fault("BadItem")
    if name in grant:
        raise Fault("Twice")
    grant[name] = ITEMS[name](value) if equals else True


def read_flags(word):
    if word in FLAGS:
        return b"rwps" if word in ALL else word
    is_known = b"f" in word and set(word) <= set(b"rwpsf") and len(set(word)) == len(word)
    raise Fault("LeftOut" if is_known else "BadFlags")


def read_grant(words, nth):
    """The fields of the next grant, by the names of its items."""
    place = 0
    try:
        word, place = words.word()
        if nth >= MOST_GRANTS:
            raise Fault("TooMany")
        if word != b"allow":
            raise Fault("NotAllow")
        word, place = words.word()
        grant, gids = {b"flags": read_flags(word)}, 0
        while True:
            word, place = words.word()
            if not word:
                break
            read_item(word, grant)
            gids = place if word.startswith(b"gids=") else gids
        if b"gids" in grant and b"uid" not in grant:
            place = gids
            raise Fault("GidsWithoutUid")
        return grant
    except Fault as fault:
        raise Fault(f"{fault} at {place}") from None


def read_grants(text):
    """The grants of a text, or its fault."""
    if not text.strip(WHITE):
        raise Fault(f"Empty at {len(text)}")
    words = Words(text)
    grants = [read_grant(words, 0)]
    while words.separator():
        grants.append(read_grant(words, len(grants)))
    return grants


def written_path(names):
    path = b"/" + b"/".join(names)
    if BARE_PATH.fullmatch(path):
        return path
    quote = b"'" if b'"' in path else b'"'
    return quote + path + quote


def written_grant(grant):
    words = [b"allow", grant[b"flags"]]
    if grant.get(b"fsname"):
        words.append(b"fsname=" + grant[b"fsname"])
    if grant.get(b"path"):
        words.append(b"path=" + written_path(grant[b"path"]))
    if b"uid" in grant:
        words.append(b"uid=%d" % grant[b"uid"])
    if b"gids" in grant:
        words.append(b"gids=" + b",".join(b"%d" % gid for gid in grant[b"gids"]))
    if b"root_squash" in grant:
        words.append(b"root_squash")
    return b" ".join(words)


def written(grants):
    """The one form of a list of grants."""
    return b", ".join(map(written_grant, grants))


# ---- lines

LONGEST_LINE = 65_536
MOST_GROUPS = 16
CAPS = re.compile(rb"-|(?!$)p?(A(?=[sx])s?x?)?(L(?=[sx])s?x?)?(X(?=[sx])s?x?)?(F(?=[sxcrwbal])s?x?c?r?w?b?a?l?)?")


def number(bits):
    def form(word):
        if not is_number(word, bits):
            raise Fault("Number")
        return b"%d" % int(word)

    return form


def one_of(kind, pattern):
    def form(word):
        if not re.fullmatch(pattern, word, re.DOTALL):
            raise Fault(kind)
        return word

    return form


def groups(word):
    """`-`, or up to sixteen numbers."""
    if word == b"-":
        return word
    ids = word.split(b",")
    if len(ids) > MOST_GROUPS or not all(is_number(one, 32) for one in ids):
        raise Fault("Number")
    return b",".join(b"%d" % int(one) for one in ids)


def grants(text):
    """The rest of a line."""
    if text == b"none":
        return text
    try:
        return written(read_grants(text))
    except Fault as fault:
        raise Fault(f"Grants {fault}") from None


def mode(word):
    if not re.fullmatch(rb"[0-7]{1,4}", word):
        raise Fault("Mode")
    return word.rjust(4, b"0")


def name(word):
    return word


client = amount = number(32)
ino = long = number(64)
opening = one_of("Mode", rb"r|w|rw")
caps = one_of("Caps", CAPS.pattern)
part = one_of("Part", rb"[ALXF]")
value = one_of("Hex", rb"-|([0-9a-f]{2})+")
REST = grants

CHANGES = {
    b"chmod": (mode,),
    b"chown": (amount,),
    b"chgrp": (amount,),
    b"setx": (name, value),
    b"rmx": (name,),
    b"size": (long,),
    b"times": (long,),
}
# The words behind the first one of each line. A change is read by its own first word.
LINES = {
    b"session": (client, amount, amount, groups, REST),
    b"close": (client,),
    b"stale": (client,),
    b"renew": (client,),
    b"regrant": (client, REST),
    b"evict": (client,),
    b"unblock": (client,),
    b"recall": (amount,),
    b"lookup": (client, ino, name),
    b"create": (client, ino, name, mode),
    b"mkdir": (client, ino, name, mode),
    b"mksnap": (client, ino, name),
    b"rmsnap": (client, ino, name),
    b"open": (client, ino, opening),
    b"want": (client, ino, caps),
    b"ack": (client, ino, long),
    b"release": (client, ino, caps),
    b"get": (client, ino, part),
    b"alter": (client, ino),
    b"flush": (client, ino),
    b"unlink": (client, ino),
    b"rmdir": (client, ino),
    b"rename": (client, ino, ino, name),
    b"poll": (client, amount),
}
CHANGING = {b"alter", b"flush"}


def is_skipped(line):
    return not line or line.startswith(b"#")


def unknown_change(_word):
    raise Fault("Change")


def forms_of(words):
    """How each word behind the first is read, or that they are too few or too many."""
    forms = LINES[words[0]]
    if words[0] in CHANGING:
        if len(words) <= 3:
            raise Fault("Count")
        if words[3] not in CHANGES:
            return (*forms, unknown_change)
        forms = (*forms, name, *CHANGES[words[3]])
    if len(words) - 1 != len(forms):
        raise Fault("Count")
    return forms


def read_line(line):
    """A line in its one form, or its fault."""
    command = line.split(b" ")[0]
    if command not in LINES:
        raise Fault("Command")
    if len(line) > LONGEST_LINE:
        raise Fault("Count")
    forms = LINES[command]
    words = line.split(b" ", len(forms)) if REST in forms else line.split(b" ")
    return b" ".join([command, *(form(word) for form, word in zip(forms_of(words), words[1:]))])


def fault_of(line):
    """The first fault of a line, or none."""
    try:
        read_line(line)
    except Fault as fault:
        return str(fault)
    return None
