"""Compares what two checkouts promise, an older and a newer one, between which crates were merged, files moved and items renamed.

It reads the sources alone, and builds nothing. A call, type, trait, constant, impl or definition of OLD is laid beside the one of NEW at
the home that the map gives it: its signature, fields and variants, each clause `requires` and `ensures` by its label, each definition with
its body. Both are the same where they are word for word, each name in the place where it is declared; by which way a file comes to it does
not matter, nor do comments and layout. What is not public is compared where something compared names it. Beside that, each crate's
stdin, stdout, args, status and data, and what examples/ expects, are compared byte for byte.

The map has these lines, and comments behind a `#`. A home is CRATE.FILE, with the file's name without its ending.

    crate OLD NEW                     the crate goes into NEW, or is called so
    file CRATE OLD NEW                a file of src/ or specs/ has another name; NEW may be a home
    item HOME OLD NEW                 an item has another name; NEW may be HOME.NAME. A method, field or variant is TYPE::NAME
    word OLD NEW                      a parameter, field or label has another name
    path OLD NEW                      what a program is run on, or answers, lies elsewhere
    gone HOME NAME, new HOME NAME, changed HOME NAME     is meant to be so; CRATE or HOME alone say it of all in it

The status is 0 where all else is the same, 1 where it is not.
"""

import argparse
import re
from collections import Counter, defaultdict
from itertools import zip_longest
from pathlib import Path

from .contracts import Checkout, Home

PROGRAM_FILES = ["crates/*/stdin", "crates/*/stdout", "crates/*/args", "crates/*/status", "crates/*/data/**/*"]
PROGRAM_FILES += [f"{folder}examples/**/*.{ending}" for folder in ("", "*/") for ending in ("stdout", "transcript", "script")]
COUNTED = {"call": "public calls", "clause": "clauses", "definition": "definitions", "other": "types, traits, constants and impls",
           "file": "files of programs"}


class Map:
    """What was merged, moved and renamed, by the lines of the map, and which of them were needed."""

    # Of each kind of line how many words it has; all but the last one say what it is about.
    KINDS = {"crate": [3], "file": [4], "item": [4], "path": [3], "word": [3], "gone": [2, 3], "new": [2, 3], "changed": [2, 3]}

    def __init__(self, lines):
        self.said, self.needed, self.words = {}, set(), set()
        for number, line in enumerate(lines, 1):
            kind, *rest = line.split("#")[0].split() or [""]
            if kind and len(rest) + 1 not in self.KINDS.get(kind, []):
                raise argparse.ArgumentTypeError(f"line {number} is not read: {line}")
            whole = kind in ("word", "gone", "new", "changed")
            self.said.update({(kind, *(rest if whole else rest[:-1])): rest[-1]} if kind else {})
            if kind == "word" or kind == "item" and "::" in rest[1]:
                self.words.add(tuple(name.rpartition("::")[2] for name in rest[-2:]))

    def find(self, *key):
        """What the line about this says; None without one."""
        self.needed |= {key} & self.said.keys()
        return self.said.get(key)

    def crate(self, name):
        return self.find("crate", name) or name

    def place(self, crate, file):
        """The crate and the file that a file's items stand in."""
        new = self.find("file", crate, file) or file
        return tuple(new.split(".")) if "." in new else (self.crate(crate), new)

    def home(self, home):
        new = self.find("item", f"{home.crate}.{home.file}", home.name) or home.name
        if new.count(".") >= 2:
            return Home(*new.split(".", 2))
        owner, mark, _ = home.name.partition("::")
        if mark:
            of = self.home(home._replace(name=owner))
            return of._replace(name=f"{of.name}::{new.partition('::')[2]}")
        return Home(*self.place(home.crate, home.file), new)

    def word(self, word):
        return self.home(word) if isinstance(word, Home) else word

    def is_same(self, old, new):
        """Whether a word of OLD, with its home in NEW, means the word of NEW."""
        if old == new:
            return True
        if isinstance(old, Home) and isinstance(new, Home) and old[:2] == new[:2] and "::" in old.name:
            names = zip_longest(old.name.split("::"), new.name.split("::"))
            return all(None not in pair and self.is_same(*pair) for pair in names)
        self.find("word", old, new)
        return (old, new) in self.words

    def is_meant(self, kind, home):
        """Whether the map says that an item is gone, new or changed."""
        place, owner = f"{home.crate}.{home.file}", home.name.partition("::")[0]
        return any([self.find(kind, home.crate), self.find(kind, place), self.find(kind, place, owner), self.find(kind, place, home.name)])

    def path(self, path):
        folders = path.split("/")
        for length in range(len(folders), 0, -1):
            if new := self.find("path", "/".join(folders[:length])):
                return "/".join((new, *folders[length:]))
        return "/".join((folders[0], self.crate(folders[1]), *folders[2:])) if folders[0] == "crates" else path

    def idle(self):
        """The lines that changed nothing; a member's name may stand in a text alone, so its line is none."""
        return [f"{' '.join(key)} {self.said[key]}" if key[0] in ("crate", "file", "item", "path") else " ".join(key)
                for key in self.said if key not in self.needed and not (key[0] == "item" and "::" in key[2])]


class Side:
    """A checkout with what is compared of it: each item by its kind and home, with what its parts mean."""

    def __init__(self, top):
        self.checkout = Checkout(top)
        self.meanings = {}
        types = {item.home: item for item in self.checkout.items if item.kind == "type"}
        by_home, impls, chosen = defaultdict(list), defaultdict(list), []
        for item in self.checkout.items:
            of = types.get(self.type_home(item))
            if of:
                name = item.home.name.partition("::")[2]
                item.home = of.home._replace(name=f"{of.home.name}::{name}" if name else of.home.name)
            (impls if item.kind == "impl" else by_home)[item.home].append(item)
            if item.public and (not of or of.public):
                chosen.append(item)
        self.all = {(item.kind, item.home) for items in by_home.values() for item in items}
        self.items = self.with_cited(chosen, by_home, impls)

    def type_home(self, item):
        """The home of the type that a method or an impl belongs to; it may stand in another file."""
        crate = self.checkout.crates[item.home.crate]
        found = self.checkout.code_home(crate, item.home.file, (item.of,)) if item.of else None
        return found[0] if found else None

    def with_cited(self, todo, by_home, impls):
        """What is public, and what is named there, with the impls of its types."""
        items, seen = {}, set()
        while todo:
            item = todo.pop()
            if id(item) in seen:
                continue
            seen.add(id(item))
            meant = {part: self.checkout.meaning(text) for part, text in item.parts.items()}
            self.meanings[id(item)] = meant
            items[self.key(item)] = item
            for home in {word for words in meant.values() for word in words if isinstance(word, Home)}:
                todo += [cited for cited in by_home[home] if cited.kind != "call"] + impls[home]
        return items

    def key(self, item):
        """What an item is found by: an impl by its header, as it may stand in any file."""
        return (item.kind, item.home) if item.kind != "impl" else (item.kind, *self.meanings[id(item)]["header"])


class Comparison:
    """What differs between two checkouts, under a map."""

    def __init__(self, old, new, names):
        self.old, self.new, self.map = old, new, names
        self.counts = Counter()
        # Items of one side alone, texts that differ, and homes in the place of others with where that is so.
        self.gone, self.added, self.changed, self.named = [], [], [], defaultdict(list)
        # So the line of a crate is needed that has nothing to compare.
        self.crates = [names.crate(crate) for crate in old.checkout.crates]
        self.items()
        self.files()

    def items(self):
        found = set()
        for key, item in self.old.items.items():
            new_key = tuple(self.map.word(word) for word in key)
            if new := self.new.items.get(new_key):
                found.add(new_key)
                self.parts(item, new)
            elif not self.map.is_meant("gone", item.home):
                self.gone.append(item)
        self.added = [item for key, item in self.new.items.items() if key not in found and not self.map.is_meant("new", item.home)]

    def parts(self, old, new):
        had, has = self.old.meanings[id(old)], dict(self.new.meanings[id(new)])
        self.counts[old.kind if old.kind in COUNTED else "other"] += 1
        if old.public and not new.public and not self.map.is_meant("changed", old.home):
            self.changed.append((old.kind, str(old.home), "it is public", "it is private"))
        for part, words in had.items():
            label = next((label for label in has if label == part or self.is_same_label(part, label, had)), None)
            self.counts["clause"] += any(word in ("requires", "ensures") for word in part.split()[:3])
            meant = [self.map.word(word) for word in words]
            if label is None or not self.are_same(meant, has.pop(label)):
                self.differs(old, new, part, label)
        for label in has:
            self.differs(old, new, None, label)

    def is_same_label(self, part, label, had):
        """Whether a part of OLD has another label in NEW."""
        pairs = list(zip_longest(part.split(), label.split()))
        return label not in had and all(old is not None and new is not None and self.map.is_same(old, new) for old, new in pairs)

    def are_same(self, old, new):
        """Whether all words are the same, and each that has another name has it throughout, and no other one has it."""
        renamed = {words for words in zip(old, new) if words[0] != words[1] and isinstance(words[0], str)}
        befores, afters = {before for before, _ in renamed}, {after for _, after in renamed}
        kept = {words for words in zip(old, new) if words[0] in befores or words[1] in afters} - renamed
        one_each = len(befores) == len(renamed) == len(afters) and not kept
        return len(old) == len(new) and one_each and all(self.map.is_same(*words) for words in zip(old, new))

    def differs(self, old, new, part, label):
        if self.map.is_meant("changed", old.home):
            return
        if part and label:
            had = [self.map.word(word) for word in self.old.meanings[id(old)][part]]
            pairs = [pair for pair in zip_longest(had, self.new.meanings[id(new)][label]) if not self.map.is_same(*pair)]
            if pairs and all(isinstance(word, Home) for pair in pairs for word in pair):
                for pair in pairs:
                    self.named[pair].append(f"{old.home} {part}")
                return
        texts = [" ".join(item.parts[name].source.split()) if name else "nothing" for item, name in ((old, part), (new, label))]
        self.changed.append((old.kind, f"{old.home} {part or label}", *texts))

    # ---- what programs are run on, and what they answer

    def files(self):
        old, new = (self.paths(side.checkout.top) for side in (self.old, self.new))
        moved = {self.map.path(path): path for path in old}
        for path in sorted({*moved, *new}):
            if path not in moved or path not in new:
                text = ("it stands there", "no such file") if path in moved else ("no such file", "it stands there")
            else:
                self.counts["file"] += 1
                text = self.file_difference(self.old.checkout.top / moved[path], self.new.checkout.top / path)
            if text:
                self.changed.append(("file", path, *text))

    @staticmethod
    def paths(top):
        return {str(path.relative_to(top)) for pattern in PROGRAM_FILES for path in top.glob(pattern) if path.is_file()}

    def file_difference(self, old, new):
        """The first lines that differ, where the map does not say so."""
        had, has = old.read_bytes().decode("latin-1"), new.read_bytes().decode("latin-1")
        if had != has:
            had = re.sub(r"\w+", lambda found: self.map.crate(found[0]), had)
        lines = zip_longest(had.split("\n"), has.split("\n"), fillvalue="nothing")
        return next((pair for pair in lines if pair[0] != pair[1]), None) if had != has else None

    # ---- the report

    def perhaps(self):
        """Lines of the map that would find what is gone among what was added."""
        by_name, moves = defaultdict(list), defaultdict(list)
        for item in self.added:
            by_name[item.kind, item.home.name].append(item.home)
        for item in self.gone:
            if item.kind not in ("impl", "fixity") and "::" not in item.home.name:
                homes = by_name[item.kind, item.home.name]
                moves[item.home.crate, item.home.file, homes[0][:2] if len(homes) == 1 else None].append(item.home)
        for (crate, file, to), homes in sorted(moves.items(), key=str):
            whole = sum(1 for of in moves if of[:2] == (crate, file)) == 1
            if to and whole and len(homes) > 1:
                yield f"file {crate} {file} {to[0]}.{to[1]}"
            elif to:
                yield from (f"item {crate}.{file} {home.name} {to[0]}.{to[1]}.{home.name}" for home in homes)

    def count(self):
        return len(self.gone) + len(self.added) + len(self.changed) + len(self.named)

    def report(self):
        private_before = {(kind, self.map.home(home)) for kind, home in self.old.all}
        gone = [(item, (item.kind, self.map.home(item.home)) in self.new.all, "private in NEW") for item in self.gone]
        added = [(item, (item.kind, item.home) in private_before, "private in OLD") for item in self.added]
        for title, items in (("In OLD alone", gone), ("In NEW alone", added)):
            lines = sorted(f"    {item.home.crate} {item.kind} {item.home.file} {item.home.name}{f' ({why})' * is_private}"
                           for item, is_private, why in items)
            yield from (f"{title}:", *lines) if lines else ()
        perhaps = list(self.perhaps())
        yield from ("Perhaps the map is to say:", *(f"    {line}" for line in perhaps)) if perhaps else ()
        for (old, new), places in sorted(self.named.items()):
            yield f"In {len(places)} texts {new} in the place of {old}: {', '.join(places[:3])}{' ..' * (len(places) > 3)}"
        for kind, place, old, new in sorted(self.changed):
            yield f"{kind} {place}:\n    old: {old}\n    new: {new}"
        yield from (f"The map needs no line: {line}" for line in self.map.idle())
        counts = ", ".join(f"{self.counts[kind]:,} {name}" for kind, name in COUNTED.items())
        yield f"same-contracts: {counts} compared; {self.count():,} differences"


def reachable(checkout):
    """The home of each thing that other crates may name by a `lib.rt`, with its names there, and how many are of yet another crate."""
    names, passed = defaultdict(set), 0
    for crate in checkout.crates.values():
        found = {name: checkout.code_home(crate, "lib", (name,)) for name in crate.passed.get("lib", {})}
        for name, home in found.items():
            path = crate.passed["lib"][name]
            passed += path[0] in checkout.crates and path[0] not in crate.files
            if home:
                names[home[0]].add(f"{crate.name}::{name}")
        for item in checkout.items:
            if item.public and item.home.crate == crate.name and item.home.file in crate.open_files and "::" not in item.home.name:
                names[item.home].add(f"{crate.name}::{item.home.file}::{item.home.name}")
    return names, passed


def reachable_lines(old, new, names):
    """What can be named from other crates in one checkout alone; no difference of what is promised."""
    (had, passed_before), (has, passed_now) = (reachable(side.checkout) for side in (old, new))
    moved = {names.home(home): where for home, where in had.items()}
    for side, some, others in (("OLD", moved, has), ("NEW", has, moved)):
        alone = sorted(some.keys() - others.keys())
        yield from (f"Named from elsewhere in {side} alone: {home}: {', '.join(sorted(some[home]))}" for home in alone)
    yield f"Passed on from other crates by lib.rt: {passed_before} names in OLD, {passed_now} in NEW"


def checkout(text):
    if not (Path(text) / "crates").is_dir():
        raise argparse.ArgumentTypeError(f"{text} has no crates/")
    return Path(text)


def read_map(text):
    try:
        return Map(Path(text).read_text(encoding="utf-8").splitlines())
    except OSError as fault:
        raise argparse.ArgumentTypeError(fault) from None


def arguments(parser):
    parser.add_argument("old", metavar="OLD", type=checkout, help="the older checkout")
    parser.add_argument("new", metavar="NEW", type=checkout, help="the newer one")
    parser.add_argument("--map", metavar="FILE", type=read_map, default=Map([]), help="what was merged, moved and renamed")
    parser.add_argument("--reachable", action="store_true", help="tell also what other crates can name in one checkout alone")


def main(given):
    old, new = Side(given.old), Side(given.new)
    comparison = Comparison(old, new, given.map)
    if given.reachable:
        print(*reachable_lines(old, new, given.map), sep="\n")
    print(*comparison.report(), sep="\n")
    return 1 if comparison.count() else 0
