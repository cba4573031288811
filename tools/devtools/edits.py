"""Tells whether each wrong edit, of must-fail/ and of wrong/, can be made: each text that it replaces stands in its file exactly once
when its turn comes. It asks no prover (`tools/dev try-edits` does), so it takes a second. The status is 0 where all can be made.
"""

from .workspace import ROOT


def faults(edit):
    """What keeps an edit from being made, if anything does."""
    file, text, old, pairs = None, "", None, 0
    for line in edit.read_text(encoding="utf-8").splitlines():
        word, _, rest = line.partition(": ") if ": " in line else (line.rstrip(":"), "", "")
        if word == "file":
            file = edit.parent.parent / rest.strip()
            if not file.is_file():
                yield f"no file {rest}"
                return
            text = file.read_text(encoding="utf-8")
        elif word == "old" and file:
            old = rest
            if (times := text.count(old)) != 1:
                yield f"stands {times} times: {old.strip()}"
                return
        elif word == "new" and old is not None:
            text, old, pairs = text.replace(old, rest), None, pairs + 1
        elif line.strip():
            yield f"is not read: {line}"
            return
    if old is not None or not pairs:
        yield "a text without another in its place"


def arguments(_parser):
    """It takes none."""


def main(_given):
    edits = sorted(path for folder in ("must-fail", "wrong") for path in ROOT.glob(f"crates/*/{folder}/*.edit"))
    found = [(edit.relative_to(ROOT), fault) for edit in edits for fault in faults(edit)]
    for edit, fault in found:
        print(f"{edit}: {fault}")
    print(f"edits: {len(edits)}, {len(found)} that can't be made")
    return 1 if found else 0
