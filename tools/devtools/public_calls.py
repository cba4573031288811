"""Lists the public calls of the crates that no program and no test comes to.

The status is 1 where there is one that tools/public_calls.txt does not except, or where that file excepts one which is called.
`--without NAME ..` reads the sources as if the functions of these names were not there, so it tells what they alone call. That is how
this command is tried: `--without an_event_has_one_line` tells `capexplain event_line`, which that test alone calls.

A contract says nothing of a call that answers want of memory every time, so somebody has to make it. A public call is a `pub fn` that
the `lib.rt` of a crate passes on, by itself or with its module, or of a type that it passes on. A law, which has an empty body, is none;
nor is what a trait demands. It is called where the `main` of a program, a test, a function for C or the value of a constant comes to it,
from function to function. The functions that a trait demands of a type are called where the type is at hand.

It reads the sources alone, as `rt fmt` lays them out. `Type::name(` and `module::name(` say what they call. Before a method's dot `self`,
a parameter and their fields have the types that are written of them. Elsewhere a method is one of each type at hand that has one of its
name: a type that the function names, or one of a field that it names, or one in the header of what it calls. So it tells too little where
a function has two such types at hand and calls the method of one, as may be with `len` and `get`, or where a local value has a function's
name; and it can't say whether what is come to is ever run.
"""

import re
from collections import defaultdict
from dataclasses import dataclass, field

from .sources import TOKEN, behind_types, end_of, until, without_clauses
from .workspace import CRATES, TOOLS

EXCEPTED = TOOLS / "public_calls.txt"
# What a name that is bound stands behind, besides one word.
BINDING = {("let", "mut"), ("Some", "("), ("Ok", "("), ("Err", "(")}


@dataclass
class Function:
    """A function, or the value of a constant."""

    crate: str
    module: str
    # The type that it is a method of, by its crate, module and name, and whether a trait demands it.
    of: tuple | None
    trait: bool
    name: str
    public: bool
    # Whether it is called by itself.
    root: bool
    header: list
    body: list
    scope: dict

    def where(self):
        return " ".join((self.crate, f"{self.of[-1]}::{self.name}" if self.of else self.name))


@dataclass
class Crate:
    # The modules and names of its items, and what it passes on, with the paths.
    items: set = field(default_factory=set)
    passed: dict = field(default_factory=dict)
    modules: set = field(default_factory=set)
    open_modules: set = field(default_factory=set)


def used(tokens, before=()):
    """The names that a `use` brings, each with its path."""
    path, at = list(before), 0
    while at < len(tokens):
        if tokens[at] == "{":
            part, depth = [], 0
            for token in tokens[at + 1 : end_of(tokens, at) - 1] + [","]:
                depth += (token == "{") - (token == "}")
                if token == "," and depth == 0:
                    yield from used(part, path) if part else ()
                    part = []
                else:
                    part.append(token)
            return
        if tokens[at] == "as":
            yield tokens[at + 1], tuple(path)
            return
        if tokens[at] != "::":
            path.append(tokens[at])
        at += 1
    yield path[-1] if path[-1] != "self" else path[-2], tuple(path if path[-1] != "self" else path[:-1])


def paths(tokens):
    """Each path of names, with its place and the token behind it."""
    at = 0
    while at < len(tokens):
        start, path = at, []
        while at < len(tokens) and tokens[at].isidentifier():
            path.append(tokens[at])
            at += 1
            if tokens[at : at + 2] == ["::", "<"]:
                at = behind_types(tokens, at + 1)
            if tokens[at : at + 1] != ["::"]:
                break
            at += 1
        if path:
            yield start, path, (tokens[at] if at < len(tokens) else "")
        else:
            at += 1


class Reader:
    """What stands in a file."""

    def __init__(self, program, crate, module, tokens):
        self.program, self.crate, self.module = program, crate, module
        self.scope, self.mine = {}, program.crates[crate]
        self.items(tokens, None, False)

    def items(self, tokens, of, trait):
        """The items of a file, or those of a block of methods."""
        readers = {
            "fn": self.function, "const": self.constant, "static": self.constant, "struct": self.fields, "enum": self.fields,
            "impl": self.methods, "trait": self.demands, "use": self.uses, "mod": self.modules,
        }
        at, seen = 0, []
        while at < len(tokens):
            token = tokens[at]
            if token == "#":
                end = end_of(tokens, until(tokens, at, "["))
                seen += ["test"] if tokens[at:end] == ["#", "[", "test", "]"] else []
                at = end
            elif token == "pub" and tokens[at + 1] == "(":
                at = end_of(tokens, at + 1)
            elif token in readers and tokens[at + 1] != "fn":
                at = readers[token](tokens, at, (of, trait, seen))
                seen = []
            else:
                seen = [] if token == ";" else [*seen, token]
                at += 1

    def add(self, name, part, kind, header, body):
        of, trait, seen = part
        root = kind == "constant" or "test" in seen or "extern" in seen or (self.module, name, of) == ("main", "main", None)
        function = Function(self.crate, self.module, of, trait, name, "pub" in seen, root, header, body, self.scope)
        self.program.functions.append(function)
        if not of:
            self.mine.items.add((self.module, name))

    def function(self, tokens, at, part):
        start = until(tokens, at, "{;")
        end = end_of(tokens, start) if tokens[start] == "{" else start + 1
        if tokens[start] == "{":
            self.add(tokens[at + 1], part, "function", tokens[at + 2 : start], tokens[start + 1 : end - 1])
        return end

    def constant(self, tokens, at, part):
        end = until(tokens, at, ";")
        self.add(tokens[at + 1], part, "constant", [], tokens[at + 2 : end])
        return end + 1

    def type(self, kind, name, tokens):
        self.mine.items.add((self.module, name))
        self.program.types[self.crate, self.module, name] = kind, tokens, self.scope, self.module

    def fields(self, tokens, at, _part):
        start = until(tokens, at, "{;(")
        end = until(tokens, start, ";") + 1 if tokens[start] != "{" else end_of(tokens, start)
        self.type(tokens[at], tokens[at + 1], tokens[start:end])
        return end

    def methods(self, tokens, at, _part):
        start = until(tokens, at, "{")
        end = end_of(tokens, start)
        head = tokens[at + 1 : start]
        head = head[behind_types(head, 0) :] if head[0] == "<" else head
        head = head[: head.index("where")] if "where" in head else head
        named = head[head.index("for") + 1 :] if "for" in head else head
        of = next((token for token in named if token.isidentifier() and token != "mut"), "")
        self.items(tokens[start + 1 : end - 1], (self.crate, self.module, of), "for" in head)
        return end

    def demands(self, tokens, at, _part):
        start = until(tokens, at, "{")
        end = end_of(tokens, start)
        self.type("trait", tokens[at + 1], [])
        self.items(tokens[start + 1 : end - 1], (self.crate, self.module, tokens[at + 1]), True)
        return end

    def uses(self, tokens, at, part):
        end = until(tokens, at, ";")
        names = dict(used(tokens[at + 1 : end]))
        self.scope.update(names)
        if "pub" in part[2] and self.module == "":
            self.mine.passed.update(names)
        return end + 1

    def modules(self, tokens, at, part):
        self.mine.modules.add(tokens[at + 1])
        if "pub" in part[2]:
            self.mine.open_modules.add(tokens[at + 1])
        return at + 3


class Program:
    """All crates, and who calls whom."""

    def __init__(self, without=()):
        self.crates, self.functions, self.types = {}, [], {}
        for folder in sorted(CRATES.iterdir()):
            if (folder / "src").is_dir():
                self.crates[folder.name] = Crate()
        for crate in self.crates:
            source = CRATES / crate / "src"
            for path in sorted(source.glob("**/*.rt")):
                module = "::".join(path.relative_to(source).with_suffix("").parts)
                tokens = TOKEN.findall(without_clauses(path.read_text(encoding="utf-8")))
                Reader(self, crate, "" if module == "lib" else module, tokens)
        self.functions = [function for function in self.functions if function.name not in without]
        self.seen_types = {}
        # Where a type's methods stand is not always where the type does.
        for function in (it for it in self.functions if it.of):
            function.of = self.type_named(function.scope, function.crate, function.module, function.of[-1]) or function.of
        self.methods, self.free = defaultdict(list), {}
        for function in self.functions:
            if function.of:
                self.methods[function.of, function.name].append(function)
            else:
                self.free[function.crate, function.module, function.name] = function
        self.demanded = defaultdict(list)
        for function in self.functions:
            if function.trait and function.of:
                self.demanded[function.of].append(function)

    def item(self, crate, path):
        """What a path in a crate names: the crate, the module and the name of the item; None for what is of no crate here."""
        for _ in range(20):
            if path[0] == "crate":
                path = path[1:]
            elif path[0] in self.crates and path[0] not in self.crates[crate].modules:
                crate, path = path[0], path[1:]
            if not path:
                return None
            items = self.crates[crate]
            module, name = "::".join(path[:-1]), path[-1]
            if (module, name) in items.items:
                return crate, module, name
            if path[0] not in items.passed:
                return None
            path = self.from_root(items.passed[path[0]] + path[1:])
        return None

    def from_root(self, path):
        return path if path[0] in ("crate", *self.crates) else ("crate", *path)

    def resolve(self, scope, crate, module, path):
        """What a path in a file names. Only in the root file does the name of a module hide that of a crate."""
        if path[0] in scope:
            path = (*scope[path[0]], *path[1:])
        elif (module, path[0]) in self.crates[crate].items:
            return crate, module, path[0]
        if module and path[0] in self.crates:
            return self.item(path[0], ("crate", *path[1:]))
        return self.item(crate, self.from_root(tuple(path)))

    def type_named(self, scope, crate, module, name):
        key = id(scope), name
        if key not in self.seen_types:
            found = self.resolve(scope, crate, module, (name,)) if name.isidentifier() and name[0].isupper() else None
            self.seen_types[key] = found if found in self.types else None
        return self.seen_types[key]

    def types_in(self, function, tokens):
        named = {self.type_named(function.scope, function.crate, function.module, token) for token in set(tokens)}
        return named - {None} | ({function.of} if function.of else set())

    def parts(self, of, words):
        """The types of the fields of a type of which a function has the name, or of an enum's variants."""
        kind, tokens, scope, module = self.types.get(of, ("", [], {}, ""))
        found, name = set(), None
        for place, token in enumerate(tokens):
            if tokens[place + 1 : place + 2] == [":"]:
                name = token
            if token.isidentifier() and token[0].isupper() and (kind == "enum" or name is None or name in words):
                found.add(self.type_named(scope, of[0], module, token))
        return found - {None}

    def calls(self, function):
        """The functions that a function calls, and the types that it has at hand."""
        body, words = function.body, set(function.body)
        at_hand = self.types_in(function, function.header + body)
        called = set()
        while True:
            known = len(at_hand), len(called)
            for of in list(at_hand):
                at_hand |= self.parts(of, words)
            for found in self.callees(function, at_hand):
                called.add(id(found))
                at_hand |= self.types_in(found, found.header)
            if known == (len(at_hand), len(called)):
                return called, at_hand

    def parameters(self, function):
        """The types of ours of each parameter whose name has no second meaning in the body."""
        given, header, body = {"self": {function.of} - {None}}, function.header, function.body
        three = zip(body, body[1:], body[2:])
        bound = {name for first, before, name in three if before in ("let", "for", "|") or (first, before) in BINDING}
        for place in range(2, len(header) - 1):
            name = header[place - 1]
            if header[place] == ":" and header[place - 2] in ("(", ",", "mut") and name.isidentifier() and name not in bound:
                kind = header[place : until(header, place, ",)")]
                named = {self.type_named(function.scope, function.crate, function.module, token) for token in kind} - {None}
                given[name] = named | ({function.of} if "Self" in kind else set())
        return given

    def receivers(self, body, at, given):
        """The types of ours that stand before the dot at `at`; None where they can't be told."""
        fields = []
        while at > 0 and body[at] == "." and re.match(r"\w", body[at - 1]):
            fields.append(body[at - 1])
            at -= 2
        if not fields or at >= 0 and body[at] in (".", "::") or fields[-1] not in given:
            return None
        types = given[fields.pop()]
        while fields:
            name = fields.pop()
            types = set().union(*(self.parts(of, {name}) for of in types))
        return types

    def callees(self, function, at_hand):
        body, given = function.body, self.parameters(function)
        for start, path, behind in paths(body):
            before = body[start - 1] if start else ""
            is_call = behind == "("
            if before == ".":
                types = self.receivers(body, start - 1, given) if is_call else set()
                yield from (found for of in (list(at_hand) if types is None else types) for found in self.methods.get((of, path[0]), ()))
            elif len(path) > 1 and path[-2][0].isupper():
                of = function.of if path[-2] == "Self" else None
                of = of or self.resolve(function.scope, function.crate, function.module, path[:-1])
                yield from self.methods.get((of, path[-1]), ())
            elif is_call or len(path) > 1 or (before in ("(", ",") and behind in (")", ",")):
                if (found := self.resolve(function.scope, function.crate, function.module, path)) in self.free:
                    yield self.free[found]

    def reached(self):
        """The functions that are come to."""
        by_id = {id(function): function for function in self.functions}
        todo = [function for function in self.functions if function.root or (function.trait and function.of not in self.types)]
        reached, at_hand = {id(function) for function in todo}, set()
        while todo:
            called, types = self.calls(todo.pop())
            for of in types - at_hand:
                called |= {id(function) for function in self.demanded[of]}
            at_hand |= types
            todo += [by_id[found] for found in called - reached if found in by_id]
            reached |= called
        return reached

    def public_calls(self):
        """What the crates pass on."""
        for crate, items in self.crates.items():
            passed = {self.item(crate, ("crate", name)) for name in items.passed}
            passed |= {(crate, *item) for item in items.items if item[0] in items.open_modules | {""}}
            for function in self.functions:
                if function.crate != crate or not function.public or function.trait or not function.body:
                    continue
                if (function.of or (crate, function.module, function.name)) in passed:
                    yield function


def excepted():
    """The calls that nobody has to make."""
    lines = EXCEPTED.read_text(encoding="utf-8").splitlines() if EXCEPTED.exists() else []
    return {" ".join(line.split()[:2]) for line in lines if line and not line.startswith("#")}


def arguments(parser):
    either = parser.add_mutually_exclusive_group()
    either.add_argument("--list", action="store_true", help="print each public call, and whether it is called; the status is 0")
    either.add_argument("--without", nargs="+", default=[], metavar="NAME", help="as if the functions of these names were not there")


def main(given):
    program = Program(given.without)
    reached = program.reached()
    public = list(program.public_calls())
    uncalled = sorted(function.where() for function in public if id(function) not in reached)
    if given.list:
        print(*sorted(f"{f.where()}: {'called' if id(f) in reached else 'not called'}" for f in public), sep="\n")
        return 0
    known = excepted()
    wrong = [place for place in uncalled if place not in known]
    idle = sorted(known - set(uncalled))
    for place in wrong:
        print(f"{place}: no program and no test calls it")
    for place in idle:
        print(f"{place}: it stands in {EXCEPTED.name}, and is called, or is no public call")
    print(f"public calls: {len(public)}, {len(wrong)} that nothing calls, {len(known) - len(idle)} excepted")
    return 1 if wrong or idle else 0
