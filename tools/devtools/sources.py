"""Reads sources as `rt fmt` lays them out: code without its clauses, its comments and what stands in its texts."""

import re

# Comments, and texts and letters with what stands in them.
DEAD = re.compile(r"""//[^\n]*|b?r"[^"]*"|b?"(?:\\.|[^"\\])*"|b?'(?:\\(?:u\{\w+\}|x\w\w|.)|[^'\\])'""", re.DOTALL)
CLAUSE = re.compile(r"\b(?:requires|ensures)\b(?:\s+\w+)?\s*\{|\bghost\b")
TOKEN = re.compile(r"'\w+|\w+|::|->|=>|[^\w\s]")
PAIRS = {"(": ")", "[": "]", "{": "}"}


def end_of(text, at):
    """Behind the bracket that closes the one at `at`."""
    depth = 0
    for place in range(at, len(text)):
        if text[place] in "([{":
            depth += 1
        elif text[place] in ")]}":
            depth -= 1
            if depth == 0:
                return place + 1
    return len(text)


def until(tokens, at, ends):
    """The place of the first of these tokens that stands in no bracket."""
    while at < len(tokens) and tokens[at] not in ends:
        at = end_of(tokens, at) if tokens[at] in PAIRS else at + 1
    return at


def without_clauses(source, in_text=lambda text: ""):
    """The code, each line where it stood: without comments, clauses and what is a ghost, and of a text what `in_text` leaves of it."""

    def left(found):
        dead = found[0]
        return "" if dead.startswith("//") else f'"{in_text(dead)}"' + "\n" * dead.count("\n")

    source = DEAD.sub(left, source)
    code, at = [], 0
    while found := CLAUSE.search(source, at):
        end = end_of(source, found.end() - 1) if found[0].endswith("{") else until(source, found.end(), ";,") + 1
        code += [source[at : found.start()], "\n" * source.count("\n", found.start(), end)]
        at = end
    return "".join(code) + source[at:]


def behind_types(tokens, at):
    """Behind the angle brackets that begin at `at`."""
    depth = 0
    for place in range(at, len(tokens)):
        depth += (tokens[place] == "<") - (tokens[place] == ">")
        if depth == 0:
            return place + 1
    return len(tokens)
