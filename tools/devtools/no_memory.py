"""Looks whether want of memory is answered only where somebody decided that it may be.

No contract can say that a growth was really refused, so a body that answers want of memory where there is enough meets each of them.
Most functions hand on the error of the call that asked for memory, by `?`. Others make it by hand: tools/no_memory.txt has a
line for each such function of the crates that a server or capd is made of, with how often it does so and why that is right. A new place
is a decision, and a line there. The status is 1 where the sources and that file differ.

`From` of an error of the allocator is left out, and so are clauses, patterns, and an arm whose pattern names what it hands on.
"""

import re
from collections import Counter

from .workspace import BESIDE, CRATES, ROOT, TOOLS, parts

TABLE = TOOLS / "no_memory.txt"
# Programs for tests and timing answer to nobody.
LEFT_OUT = set(parts()[BESIDE])
WORD = r"\bAllocError\b|\b\w+::(?:NoMemory|OutOfMemory|Memory|NoReader|NoView)\b"
MADE = re.compile(WORD + r"|\bout_of_memory\(\)")
# A pattern that names it, whose arm hands it on.
HANDED = re.compile(rf"\s*[^=]*({WORD})[^=]*=>")
# What stands behind it in a pattern, and before it in a pattern, a type or a comparison.
PATTERN = re.compile(r"[)\s]*(=>|\||if\b)")
NAMED = re.compile(r"(^\s*\|\s*|Result<[^;]*|->[^;]*|[^:]: *&?|== *|matches!\([^;]*)$")
# A field's value, which stands behind a colon as a type does.
FIELD = re.compile(r"\w+: $")
OTHER = re.compile(r"\s*(use|ghost|impl|ensures|requires|pub|fn)\b")


def without_texts(source):
    """The source without comments, and with empty texts."""
    return re.sub(r"//[^\n]*", "", re.sub(r'"(?:\\.|[^"\\])*"', '""', source))


def made(path):
    """The function and the line of each place that makes the error."""
    function, is_from = "", False
    for line in without_texts(path.read_text(encoding="utf-8")).split("\n"):
        if begins := re.search(r"\bfn (\w+)", line):
            function = begins[1]
        if re.match(r"impl\b|}", line):
            is_from = re.search(r"\bFrom<Alloc(Error|Failed<)", line)
        if is_from or OTHER.match(line) or HANDED.match(line):
            continue
        for place in MADE.finditer(line):
            before = FIELD.sub("", line[: place.start()]) if "::" in place[0] else line[: place.start()]
            if not PATTERN.match(line[place.end() :]) and not NAMED.search(before):
                yield function, line.strip()


def found():
    """Each place, by its file and function."""
    for path in sorted(CRATES.glob("*/src/**/*.rt")):
        crate = path.relative_to(CRATES).parts[0]
        if crate not in LEFT_OUT:
            for function, line in made(path):
                yield f"{crate}/{path.relative_to(CRATES / crate / 'src')} {function}", line


def written():
    """How often each function may make it, by the table."""
    table = {}
    for line in TABLE.read_text(encoding="utf-8").splitlines():
        if line and not line.startswith("#"):
            file, function, count, reason = line.split(maxsplit=3)
            table[f"{file} {function}"] = int(count) if reason else 0
    return table


def arguments(parser):
    parser.add_argument("--list", action="store_true", help="print each line that answers it, with its function; the status is 0")


def main(given):
    if given.list:
        for place, line in found():
            print(f"{place}: {line}")
        return 0
    counts, table = Counter(place for place, _ in found()), written()
    wrong = [place for place in sorted(counts.keys() | table.keys()) if counts[place] != table.get(place, 0)]
    for place in wrong:
        print(f"{place}: {counts[place]} here, {table.get(place, 0)} in {TABLE.relative_to(ROOT)}")
    print(f"want of memory by hand: {len(counts)} functions, {len(wrong)} not as written")
    return 1 if wrong else 0
