"""capd, asked many times in one process: by `capbench play`, which does what capd does with the words of each line of a talk, and prints what
came of it where something else was wanted. So of each line something is wanted that never comes.
"""

import json
import re
import subprocess
import sys
from dataclasses import dataclass

# What never comes, and what the program prints before and behind what came.
NEVER = b"?\n"
BEFORE = b"wanted:\n" + NEVER + b"= 0\ncame:\n"
CAME = re.compile(rb"(?P<written>.*)= (?P<status>[0-3])\n", re.DOTALL)
PLAIN = re.compile(rb"[^A-Za-z0-9_.,:/=-]")


@dataclass(frozen=True)
class Came:
    """What is written on both streams, and the status."""

    written: bytes
    status: int

    def is_good(self):
        return self.status == 0

    def line(self):
        """What is written, without the line feed at its end."""
        return self.written[:-1]

    def object_or_fault(self):
        """The object that is written, or the line of a fault, without a hint behind it."""
        return json.loads(self.written) if self.is_good() else self.written.decode().split("\n")[0]


def word(text):
    """A word as a talk has it."""
    return PLAIN.sub(lambda found: b"\\x%02x" % found[0][0], text) or b"''"


def explain_words(text, question, release=None):
    """The words that ask a question, by the rules of a release or the eleven."""
    by = [] if release is None else [b"--mds", str(release.number).encode()]
    grants = [b"--grants", text] if not text.startswith(b"-") else [b"--grants=" + text]
    return [b"explain", b"--json", *by, *grants, *question.words()]


def form_words(release, text):
    return [b"grants", b"--mds", str(release.number).encode(), b"--", text]


def all_words(text, questions, releases):
    """What is asked of a text: each question by the eleven rules; and for each release by that, and for a form."""
    yield from (explain_words(text, question) for question in questions)
    for release in releases:
        yield from (explain_words(text, question, release) for question in questions)
        yield form_words(release, text)


class Capd:
    """The program that plays, and the file that it is given."""

    def __init__(self, program, talk):
        self.program, self.talk = program, talk

    def answers(self, lines):
        """What comes of these lines of words, each the words behind `capd`."""
        text = [b"* asked\n"]
        for words in lines:
            text.append(b"$ " + b" ".join(map(word, words)) + b"\n" + NEVER)
        self.talk.write_bytes(b"".join(text))
        ran = subprocess.run([self.program, "play", self.talk], stdout=subprocess.PIPE, stderr=subprocess.PIPE)
        first, *told = ran.stdout.split(BEFORE)
        if ran.returncode != 1 or first != self.talk.stem.encode() + b": asked: differs\n" or len(told) != len(lines):
            sys.exit(f"{self.program} play {self.talk} failed with status {ran.returncode}:\n{ran.stderr.decode()}")
        return [self.came(it) for it in told]

    def came(self, told):
        found = CAME.fullmatch(told)
        if found is None:
            sys.exit(f"{self.program} play {self.talk} says {told}")
        return Came(found["written"], int(found["status"]))
