"""Prints the rules: the definitions that docs/READING_LIST.md names, each with what its file says of it.

It prints all of them, section by section, or those of which the section, the file or the name has one of the words; where there are
none of these, the status is 1. With `--check` it prints none, and says whether each stands in its file; the status is 1 where one does not.

What a file says of a definition are the `--` lines above it, or else those that it begins with, or the first one of the file.
"""

import re

from .workspace import CRATES, ROOT

PAGE = ROOT / "docs" / "READING_LIST.md"
DEFINED = re.compile(r"(?:(?:abbrev|unfoldable|pub|record|data) )+([^\s:]+)")
ROW = re.compile(r"- `(\w+)/(\w+)`: (.*)$")


def sentences(lines):
    """The texts of the remarks that the lines begin with."""
    said = []
    for line in lines:
        if not line.strip().startswith("--"):
            break
        said.append(line.strip().removeprefix("--").strip())
    return said


def definitions(path):
    """Each definition of a file, with what is said of it."""
    lines = path.read_text(encoding="utf-8").splitlines()
    for index, line in enumerate(lines):
        if begins := DEFINED.match(line):
            above = sentences(reversed(lines[:index]))
            yield begins[1], " ".join(reversed(above)) or " ".join(sentences(lines[index + 1 :])) or " ".join(sentences(lines[:1]))


def named():
    """The section, the file and the name of each definition that the page names."""
    section = ""
    for line in PAGE.read_text(encoding="utf-8").splitlines():
        if line.startswith("## "):
            section = line.removeprefix("## ")
        elif row := ROW.match(line):
            yield from ((section, f"{row[1]}/{row[2]}", name) for name in re.findall(r"`([^`]+)`", row[3]))


def said_in(file):
    crate, name = file.split("/")
    path = CRATES / crate / "specs" / f"{name}.antt"
    return dict(definitions(path)) if path.exists() else {}


def arguments(parser):
    parser.add_argument("words", nargs="*", metavar="WORD", help="a name, a file, or a part of a section's title")
    parser.add_argument("--check", action="store_true", help="whether each definition stands in its file")


def main(given):
    words = [word.lower() for word in given.words]
    rules = list(named())
    said = {file: said_in(file) for _, file, _ in rules}
    missing = [f"{file} {name}" for _, file, name in rules if name not in said[file]]
    if given.check:
        print(*missing, f"rules: {len(rules)} definitions, {len(missing)} not in their file", sep="\n")
        return 1 if missing else 0
    shown = ""
    for section, file, name in rules:
        if words and not any(word in f"{section} {file} {name}".lower() for word in words):
            continue
        if section != shown:
            print(f"{section}\n")
            shown = section
        print(f"  {file} {name}\n      {said[file].get(name, 'not in its file')}")
    if not shown:
        print("rules: no section, file or name has one of these words")
    return 0 if shown else 1
