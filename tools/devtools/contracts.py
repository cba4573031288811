"""Reads what the crates of a checkout promise, for the command same-contracts.

Of each `crates/NAME/src` it reads functions, methods, types, traits, constants and impls with their clauses, of each `crates/NAME/specs`
the definitions. Each becomes an `Item` of named parts, as its signature, a field, a clause. The words of a part are read with what the
names among them mean: a name that a `use` brings, through whatever passes it on, is the `Home` where it is declared, so that it does not
matter by which way a file comes to it. Comments, layout and what proofs alone look at are left out, and so is `Drop`, which says nothing.

It reads sources as `rt fmt` lays them out. A name that is bound (a parameter, or a variable of a pattern, a `let` or a λ) is that
binding in the whole clause. The names of std's Prelude stand for themselves.
"""

import re
from dataclasses import dataclass, field
from pathlib import Path
from typing import NamedTuple

from .sources import DEAD, PAIRS, TOKEN, behind_types, end_of, until

CODE_WORD = re.compile(f"{DEAD.pattern}|{TOKEN.pattern}", re.DOTALL)
SPEC_WORD = re.compile(r"""--[^\n]*|"(?:\\.|[^"\\])*"|[^\s(){}.;,@"]+|\.\s?|\n(?=\S)|[(){};,@]""")
SIGNATURE = re.compile(r"((?:(?:pattern|unfoldable|abbrev|pub) )*)(?:(record|data|ruleset) )?(\S+)((?: \{[^}]*\})? :\s.*|.*)", re.DOTALL)
KEYWORDS = set("as const dyn else extern false fn for if impl in let mut pub ref static struct true type unsafe where".split())
MARKS = set("( ) { } . ; , @ → × ↦ = | λ".split()) | {". ", "\n", ""}
# What says how a thing is compiled or proved, and not what it is.
UNSEEN = {"tactic", "inline", "cycle", "allow", "cfg", "test", "cold"}
# Where the laws stand that are read with the tests.
LAWS = "worked_cases/"
PRELUDES = ("Rattle.std.specs.Prelude.", "Rattle.std.proofs.Common.")


class Home(NamedTuple):
    """Where a thing is declared: the file by its name without an ending. A file of specs/ begins with a capital."""

    crate: str
    file: str
    name: str

    def __str__(self):
        return f"{self.crate}.{self.file} {self.name}"


class Word(str):
    """A word of the code, with where it stands."""

    start = end = 0

    @classmethod
    def of(cls, found):
        word = cls(found[0])
        word.start, word.end = found.span()
        return word


@dataclass
class Text:
    """Words as they stand, of the code or else of clauses, and the scope that tells what they mean."""

    source: str
    scope: object
    is_code: bool = True
    bound: frozenset = frozenset()


@dataclass
class Item:
    """What is declared: a call, type, trait, constant, alias, impl, macro or definition."""

    kind: str
    home: Home
    public: bool
    parts: dict = field(default_factory=dict)
    # The type that a method belongs to.
    of: str = ""


def code_words(source):
    return [Word.of(found) for found in CODE_WORD.finditer(source) if found[0][:2] != "//"]


def spec_words(source):
    """The words of clauses or of a definition, with a line feed where a line begins anew, and another dot behind the binders of a λ."""
    return [". " if found[0] == ".\n" else found[0] for found in SPEC_WORD.finditer(source) if found[0][:2] != "--"]


def split(text):
    """The text cut at the commas that stand in no braces."""
    parts, depth = [], 0
    for piece in text.split(","):
        # What stands in braces goes on with the piece before.
        parts[len(parts) - (depth > 0) :] = [f"{parts[-1]},{piece}" if depth > 0 else piece]
        depth += piece.count("{") - piece.count("}")
    return [part.strip() for part in parts if part.strip()]


def imports(text, mark, before=()):
    """What a `use` brings: the name that it has there, its path, and whether it stands in braces."""
    head, brace, inner = text.strip().partition("{")
    if brace:
        before = (*before, *(word for word in head.strip().split(mark) if word))
        yield from ((name, path, True) for part in split(inner.rpartition("}")[0]) for name, path, _ in imports(part, mark, before))
        return
    path, _, other = head.partition(" as ")
    path = (*before, *path.strip().split(mark))
    path = path[:-1] if path[-1] == "self" else path
    yield other.strip() or path[-1], path, False


class Scope:
    """What tells what the words of a part mean: the crate and file, the `use` lines of the clauses and of the code, and `Self`."""

    def __init__(self, crate, file, around=None, this=""):
        self.crate, self.file, self.this = crate, file, this
        self.items = dict(around.items) if around else {}
        self.modules = dict(around.modules) if around else {}
        self.uses, self.operators = crate.uses.setdefault(file, {}), {}

    def add(self, text):
        """Takes in a `use` line of the clauses, and tells the names that it brings."""
        brought, self.operators = list(imports(text, ".")), {}
        for name, path, in_braces in brought:
            (self.items if in_braces else self.modules)[name] = path
        return {name: path for name, path, _ in brought}

    def operator(self, part):
        """The path of the operator that has this part."""
        if not self.operators:
            self.operators = {piece: path for name, path in self.items.items() if "◌" in name for piece in name.split("◌")}
            self.operators[""] = None
        return self.operators.get(part)


class Crate:
    """What is declared in a crate, file by file."""

    def __init__(self, name):
        self.name = name
        # Names of files: all of src/, those that only tests have, and those that other crates may name.
        self.files, self.tests, self.open_files = set(), set(), set()
        # What is declared, as (file, name), and by that the variants of an enum or `data`.
        self.declared, self.variants = set(), {}
        # By file: what `use` brings to the code, what it passes on of the code, and of specs/.
        self.uses, self.passed, self.spec_passed = {}, {}, {}

    def is_variant(self, name):
        return any(name in names for names in self.variants.values())


class Checkout:
    """The crates of a checkout, and what they declare."""

    def __init__(self, top):
        self.top, self.crates, self.items = Path(top), {}, []
        for folder in sorted(self.top.glob("crates/*/src")):
            self.crates[folder.parent.name] = Crate(folder.parent.name)
        for name, crate in self.crates.items():
            folder = self.top / "crates" / name
            paths = {path.relative_to(folder / "src").with_suffix("").as_posix(): path for path in sorted((folder / "src").glob("**/*.rt"))}
            crate.files = set(paths)
            for file in sorted(paths, key=lambda file: file not in ("lib", "main")):
                CodeFile(self, crate, file, paths[file].read_text(encoding="utf-8"))
            for path in sorted((folder / "specs").glob("*.antt")):
                SpecFile(self, crate, path.stem, path.read_text(encoding="utf-8"))

    def spec_home(self, path):
        """What a path of the clauses names: a home, or else the path itself."""
        for _ in range(20):
            if len(path) < 4 or path[0] != "Rattle" or path[1] not in self.crates:
                break
            crate, folder, file, rest = self.crates[path[1]], path[2], path[3], path[4:]
            if file in ("declared", "contracts"):
                return self.made_home(crate, file, rest)
            if folder == "specs" and file in crate.spec_passed.get("Lib", {}):
                path = (*crate.spec_passed["Lib"][file], *rest)
            elif folder == "specs" and rest and rest[0] in crate.spec_passed.get(file, {}):
                path = (*crate.spec_passed[file][rest[0]], *rest[1:])
            else:
                return Home(crate.name, file if folder == "specs" else f"{folder}/{file}", ".".join(rest))
        text = ".".join(path)
        return next((text.removeprefix(prelude) for prelude in PRELUDES if text.startswith(prelude)), text)

    @staticmethod
    def made_home(crate, folder, rest):
        """What the modules name that rattle makes of the code."""
        in_file = rest[0] in crate.files and len(rest) > 1
        file, rest = (rest[0], rest[1:]) if in_file else ("lib", rest)
        if folder == "contracts":
            return Home(crate.name, file, "::".join((rest[0], folder, ".".join(rest[1:]))))
        names = [name for name in rest if name not in ("TheVariants", "TheConstants", "TheInside")]
        return Home(crate.name, file, "::".join(names[:-1] if names[-2:-1] == names[-1:] else names))

    def code_home(self, crate, file, path):
        """The home of what a path names in a file of the code, and what of the path is left behind it; else None."""
        head, rest = path[0], path[1:]
        if head in ("crate", "super", "self"):
            return self.code_home(crate, file if head == "self" else "lib", rest) if rest else None
        if (file, head) in crate.declared:
            return Home(crate.name, file, head), rest
        if file in ("lib", "main") and head in crate.files and rest:
            return self.code_home(crate, head, rest)
        if (used := crate.uses.get(file, {}).get(head, path[:1])) != path[:1]:
            return self.code_home(crate, file if used[0] != head else "lib", (*used, *rest))
        return self.code_home(self.crates[head], "lib", rest) if head in self.crates and rest else None

    def member(self, home, name, mark):
        """The home of a variant of what has this home; None where it has none of this name."""
        if not isinstance(home, Home) or name not in self.crates[home.crate].variants.get((home.file, home.name), ()):
            return None
        return home._replace(name=name if home.file[0].isupper() else home.name + mark + name)

    def meaning(self, text):
        """The words of a text, in the place of each name what it means."""
        return self.code_meaning(text) if text.is_code else SpecReader(self, text).meaning()

    def code_meaning(self, text):
        meant, words, at = [], [*code_words(text.source), "", ""], 0
        while at < len(words) - 2:
            word, before, behind = words[at], words[at - 1] if at else "", words[at + 1]
            at += 1
            if word == "," and behind in (*PAIRS.values(), ">", "") or word == "mut" and before in ("(", ","):
                continue
            if not word.isidentifier() or word in KEYWORDS or before == "." or behind == ":" or word in text.bound:
                meant.append(word)
                continue
            path = [word]
            while words[at] == "::" and words[at + 1].isidentifier():
                path.append(words[at + 1])
                at += 2
            meant += self.path_meaning(text.scope, tuple(path))
        return meant

    def path_meaning(self, scope, path):
        path = (scope.this or path[0], *path[1:]) if path[0] == "Self" else path
        if found := self.code_home(scope.crate, scope.file, path):
            home, rest = found
            variant = self.member(home, rest[0], "::") if rest else None
            return [variant, *rest[1:]] if variant else [home, *rest]
        return ["::".join((*scope.uses.get(path[0], path[:1]), *path[1:]))]


class SpecReader:
    """Reads the words of a clause or of a definition with what they mean."""

    def __init__(self, checkout, text):
        self.checkout, self.scope = checkout, text.scope
        self.words = [*spec_words(text.source), "", ""]
        self.bound = text.bound | self.binders() | self.arguments()

    def binders(self):
        """What a λ or a `let` binds, and what stands in brackets with its type."""
        names = set()
        for at, word in enumerate(self.words):
            if word not in ("(", "{", "λ", "let"):
                continue
            end = at + 1
            while self.words[end] not in MARKS - ({"(", ")", ","} if word == "λ" else set()) | {":"}:
                end += 1
            if self.words[end] == {"λ": ". ", "let": "="}.get(word, ":") or word == "let" and self.words[end] == ":":
                names |= set(self.words[at + 1 : end])
        return names

    def arguments(self):
        """What is bound before the `=` of a line of a definition: the names that are of no variant."""
        names, line = set(), None
        for word in self.words:
            if word == "\n":
                line = set()
            elif line is not None and word == "=":
                names, line = names | line, None
            elif line is not None and word not in MARKS and not self.is_variant(word):
                line.add(word)
        return names - {word for before, word in zip(self.words, self.words[1:]) if before == "\n"}

    def is_variant(self, name):
        home = self.home_of(name)
        if isinstance(home, Home):
            return self.checkout.crates[home.crate].is_variant(home.name.rpartition("::")[2])
        return home is not None and home.rpartition(".")[2][:1].isupper() or name in self.scope.modules

    def home_of(self, name):
        """What a name alone means; None where nothing brings and nothing declares it."""
        scope = self.scope
        if name in scope.items:
            return self.checkout.spec_home(scope.items[name])
        if (scope.file, name) in scope.crate.declared:
            return Home(scope.crate.name, scope.file, name)
        if name == "Self" and scope.this:
            return self.checkout.path_meaning(scope, ("Self",))[0]
        if path := scope.operator(name):
            home = self.checkout.spec_home(path)
            return home._replace(name=f"{home.name} {name}") if isinstance(home, Home) else name
        found = self.checkout.code_home(scope.crate, scope.file, (name,)) if name[0].isupper() else None
        return found[0] if found else None

    def meaning(self):
        meant, at, words = [], 0, self.words
        while at < len(words) - 2:
            word, before = words[at], words[at - 1] if at else ""
            is_label = before in ("{", ";") and words[at + 1] == "="
            at += 1
            if word == ";" and words[at] == "}" or word == "," and words[at] in (")", "}"):
                continue
            is_field = before == "pub" and words[at] == ":"
            if word in MARKS or before == "." or is_label or is_field or word in self.bound:
                meant.append(word)
                continue
            home, at = self.path(word, at)
            meant.append(home or word)
        return meant

    def path(self, word, at):
        """What a path means that begins with the word before `at`, and where it ends."""
        home = self.home_of(word)
        if self.words[at] != ".":
            return home, at
        if variant := self.checkout.member(home, self.words[at + 1], "::"):
            return variant, at + 2
        if home or word not in (*self.scope.modules, "Rattle"):
            return home, at
        path = (*self.scope.modules.get(word, (word,)), self.words[at + 1])
        at += 2
        while word == "Rattle" and self.words[at] == ".":
            path, at = (*path, self.words[at + 1]), at + 2
        return self.checkout.spec_home(path), at


class CodeFile:
    """Reads a file of src/. Each reader of items takes where the item begins and where its word stands, and tells where it ends."""

    def __init__(self, checkout, crate, file, source):
        self.checkout, self.crate, self.file, self.source = checkout, crate, file, source
        # Behind the last word stand empty ones, so that one may look further.
        self.words = [*code_words(source), *[Word(" ")] * 4]
        self.items(0, len(self.words) - 4, Scope(crate, file), None)

    def raw(self, start, end):
        """What stands from a word to before another, without comments."""
        words = self.words[start:end]
        return "".join(word + " " * (word.end < after.start) for word, after in zip(words, [*words[1:], *words[-1:]]))

    def behind_generics(self, at):
        """Behind the parameters in angle brackets at `at`, if there are any."""
        return behind_types(self.words, at) if self.words[at] == "<" else at

    def code(self, start, end, scope):
        return Text(self.raw(start, end), scope)

    def inside(self, begin, scope, bound=frozenset()):
        """The clause between the bracket at `begin` and the one that closes it."""
        text = self.source[self.words[begin].end : self.words[end_of(self.words, begin) - 1].start]
        return Text(re.sub(r"(?m)(^|\s)//.*", "", text), scope, False, bound)

    def is_public(self, start, at):
        if (self.file in self.crate.tests or self.crate.name.startswith("tests_")) and not self.file.startswith(LAWS):
            return False
        return any(self.words[place] == "pub" and self.words[place + 1] != "(" for place in range(start, at))

    def add(self, kind, name, public, parts, of=""):
        self.checkout.items.append(Item(kind, Home(self.crate.name, self.file, name), public, parts, of))
        self.crate.declared.add((self.file, name))
        return self.checkout.items[-1]

    def items(self, at, end, scope, owner):
        """The items of a file, or with an owner those of an impl or a trait."""
        readers = {
            "fn": self.function, "const": self.value, "static": self.value, "type": self.value, "struct": self.type, "enum": self.type,
            "impl": self.impl, "trait": self.impl, "use": self.use, "mod": self.module, "ghost": self.ghost,
        }
        start = at
        while at < end:
            word, behind = self.words[at], self.words[at + 1]
            if word == "#":
                at = end_of(self.words, until(self.words, at, "["))
            elif word == "pub" and behind == "(":
                at = end_of(self.words, at + 1)
            elif behind == "!" and word.isidentifier():
                at = start = self.macro(at, scope)
            elif word in readers and behind not in ("fn", "unsafe", "extern"):
                at = start = readers[word](start, at, scope, owner)
            else:
                at += 1

    def attributes(self, start, end, scope):
        """What stands in front of a thing and says what it is; its derives in the order of the alphabet."""
        parts = {}
        while start < end:
            behind = start + 1
            if self.words[start] == "#":
                behind = end_of(self.words, until(self.words, start, "["))
                name = self.words[start + 2]
                inner = sorted(set(split(self.raw(start + 4, behind - 2))) - {"Drop"}) if name == "derive" else [self.raw(start, behind)]
                if name not in UNSEEN and inner:
                    parts[name] = Text(" , ".join(inner), scope)
            start = behind
        return parts

    def use(self, start, at, _scope, _owner):
        end = until(self.words, at, ";")
        brought = {name: path for name, path, _ in imports(self.raw(at + 1, end), "::")}
        self.crate.uses[self.file].update(brought)
        if "pub" in self.raw(start, at).split():
            self.crate.passed.setdefault(self.file, {}).update(brought)
        return end + 1

    def module(self, start, at, _scope, _owner):
        attributes = self.raw(start, at)
        if "cfg(test)" in attributes:
            self.crate.tests.add(self.words[at + 1])
        if "pub" in attributes.split():
            self.crate.open_files.add(self.words[at + 1])
        return at + 3

    def ghost(self, _start, at, scope, owner):
        end = until(self.words, at, ";")
        if self.words[at + 1] == "use":
            scope.add(self.source[self.words[at + 1].end : self.words[end].start])
        elif owner:
            owner.parts[f"ghost {self.words[at + 1]}"] = self.inside(until(self.words, at, "{"), scope)
        return end + 1

    def macro(self, at, scope):
        begin = until(self.words, at, PAIRS)
        end = end_of(self.words, begin)
        self.add("macro", f"{self.words[at]}! {self.raw(begin + 1, begin + 3)}", True, {"text": self.code(begin, end, scope)})
        return end

    def function(self, start, at, scope, owner):
        name, head = self.words[at + 1], self.behind_generics(at + 2)
        stop = until(self.words, head, ("requires", "ensures", "ghost", "{", ";"))
        marks = [self.words[place] for place in range(start, at) if self.words[place] in ("const", "unsafe", "extern", '"C"')]
        parts = {"signature": Text(" ".join([*marks, self.raw(at + 2, stop)]), scope)}
        bound = frozenset(self.words[place - 1] for place in range(head, stop) if self.words[place] == ":")
        while self.words[stop] not in ("{", ";", " "):
            begin = until(self.words, stop, "{")
            label = " ".join(self.words[place] for place in range(stop, begin) if self.words[place] not in (":", ","))
            parts[label + " again" * (label in parts)] = self.inside(begin, scope, bound)
            stop = end_of(self.words, begin) + (self.words[end_of(self.words, begin)] == ",")
        if owner and owner.kind in ("impl", "trait"):
            # What a trait demands of an impl is as the trait says.
            owner.parts.update((f"fn {name} {part}", text) for part, text in parts.items() if owner.kind == "trait" or part != "signature")
        else:
            parts.update(self.attributes(start, at, scope))
            parts.update({"header": owner.parts["header"]} if owner else {})
            self.add("call", f"{owner.of}::{name}" if owner else name, self.is_public(start, at), parts, owner.of if owner else "")
        return end_of(self.words, stop) if self.words[stop] == "{" else stop + 1

    def value(self, start, at, scope, owner):
        """A constant or a type by another name."""
        end, name = until(self.words, at, ";"), self.words[at + 1]
        if owner and owner.kind in ("impl", "trait"):
            owner.parts[f"{self.words[at]} {name}"] = self.code(at + 2, end, scope)
        else:
            kind, value = "alias" if self.words[at] == "type" else "constant", {"value": self.code(at + 2, end, scope)}
            self.add(kind, f"{owner.of}::{name}" if owner else name, self.is_public(start, at), value, owner.of if owner else "")
        return end + 1

    def type(self, start, at, scope, _owner):
        begin, name, is_enum = until(self.words, at, "{;("), self.words[at + 1], self.words[at] == "enum"
        item = self.add("type", name, self.is_public(start, at), self.attributes(start, at, scope))
        item.parts["kind"] = Text(f"{self.words[at]} {self.raw(at + 2, begin)}", scope)
        names = [] if self.words[begin] == ";" else list(self.members(item, begin, scope, is_enum))
        item.parts["order"] = Text(" ".join(names), scope, bound=frozenset(names))
        if is_enum:
            self.crate.variants[self.file, name] = set(names)
        return end_of(self.words, begin) if self.words[begin] == "{" else until(self.words, begin, ";") + 1

    def members(self, item, begin, scope, is_enum):
        """The names of the fields or variants in the brackets at `begin`, of which each becomes a part."""
        at, end, count = begin + 1, end_of(self.words, begin) - 1, 0
        while at < end:
            first = stop = at
            while stop < end and self.words[stop] != ",":
                stop = end_of(self.words, stop) if self.words[stop] in PAIRS else max(self.behind_generics(stop), stop + 1)
            while self.words[first] in ("#", "pub"):
                first = end_of(self.words, first + 1) if self.words[first] == "#" or self.words[first + 1] == "(" else first + 1
            if self.words[first] == "ghost":
                item.parts[f"ghost field {self.words[first + 1]}"] = self.inside(until(self.words, first, "{"), scope)
            else:
                name = self.words[first] if self.words[begin] == "{" else str(count)
                label = f"variant {name}" if is_enum else f"field {name}" if self.is_public(at, first) else f"private field {name}"
                item.parts[label] = self.code(first + (self.words[begin] == "{"), stop, scope)
                item.parts.update((f"{label} {part}", text) for part, text in self.attributes(at, first, scope).items())
                yield name
            at, count = stop + 1, count + 1

    def impl(self, start, at, scope, _owner):
        """An impl, or a trait."""
        begin = until(self.words, at, "{")
        first, stop = self.behind_generics(at + 1), until(self.words, at, ("{", "where"))
        heads = [place for place in range(first, stop) if self.words[place] == "for"]
        names = [self.words[place] for place in range(heads[-1] if heads else first, stop) if self.words[place].isidentifier()]
        of = next(name for name in names if name not in KEYWORDS)
        kind = "trait" if self.words[at] == "trait" else "impl" if heads else "methods"
        inner = Scope(self.crate, self.file, scope, of)
        header = {"header": self.code(at + 1, begin, inner)}
        if kind == "trait":
            owner = self.add(kind, of, self.is_public(start, at), header)
            owner.of = of
        else:
            owner = Item(kind, Home(self.crate.name, self.file, of), True, header, of)
            if kind == "impl" and self.words[first] != "Drop":
                self.checkout.items.append(owner)
        self.items(begin + 1, end_of(self.words, begin) - 1, inner, owner)
        return end_of(self.words, begin)


class SpecFile:
    """Reads a file of specs/."""

    def __init__(self, checkout, crate, file, source):
        self.checkout, self.crate, self.file = checkout, crate, file
        self.scope, self.around = Scope(crate, file), ""
        self.item = Item("", None, False, {"text": Text("", None)})
        passed = crate.spec_passed.setdefault(file, {})
        for line in self.lines(source):
            if found := re.match(r"(?:unfoldable )?(pub )?use (.*)", line, re.DOTALL):
                brought = self.scope.add(" ".join(found[2].split()))
                passed.update(brought if found[1] else {})
            elif line.startswith("module "):
                self.around = line
            elif line.startswith("infix"):
                self.add("fixity", line.split()[-1], True, line)
            elif not line.startswith(("mod ", "pub mod ", "unfolding ")):
                self.line(line)

    @staticmethod
    def lines(source):
        """The lines, each with those that go on with it; what stands in a `module _` two places to the left."""
        lines, is_inner = [], False
        for line in source.split("\n"):
            line = re.sub(r"(^|\s)--.*", "", line).rstrip()
            is_inner = line.startswith("module ") if line[:1].strip() else is_inner
            line = line.removeprefix("  ") if is_inner else line
            if line[:1].strip():
                lines.append(line)
            elif line:
                lines[-1] += "\n" + line
        return lines

    def line(self, line):
        marks, sort, name, rest = SIGNATURE.fullmatch(line).groups()
        if sort == "ruleset":
            # It says nothing: proofs alone take it.
            self.item = Item(sort, None, False, {"text": Text("", None)})
        elif sort or re.match(r"(?: \{[^}]*\})? :\s", rest):
            self.item = self.declare(marks, sort, name, line)
        else:
            self.item.parts["text"].source += "\n" + line

    def declare(self, marks, sort, name, line):
        item = self.add("definition", name, "pub" in marks.split(), line.removeprefix(marks))
        if self.around:
            item.parts["around"] = Text(self.around, self.scope, False)
        if sort == "data":
            rows = re.findall(r"^\s+((?:[^\s(){}]+ )+): ", line, re.MULTILINE)
            self.crate.variants[self.file, name] = {variant for row in rows for variant in row.split()}
            self.crate.declared |= {(self.file, variant) for variant in self.crate.variants[self.file, name]}
        return item

    def add(self, kind, name, public, source):
        item = Item(kind, Home(self.crate.name, self.file, name), public, {"text": Text(source, self.scope, False)})
        self.checkout.items.append(item)
        self.crate.declared.add((self.file, name))
        return item
