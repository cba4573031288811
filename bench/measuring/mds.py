"""Asks Debian's ceph-mds of Ceph 16.2.15, 18.2.7 and 20.2.4, and capd, the same random questions, and compares the answers: what the real
code makes of a text, and `capd explain --mds`, with the first grant that allows; what `capd grants --mds` prints, which has to read as the
same grants; and what `capd explain --json` says of the release beside its own answer. At the first difference it prints both answers and ends
with status 1.

The real code is MDSAuthCaps, in the program's own process: its parse, is_capable, allow_all, and the grants as it prints them. The last two
tell whether a client may mount, as a server asks that. capd is asked by `capbench play`, many questions in one process. What a client refuses
by itself is not asked of any code.

With --library the library for C is asked instead, in the process of the ceph-mds of Ceph 16, by the masks of its requests, and each answer
that differs is put to a difference that docs/GRANTS.md names; the status is 1 where one is left over.

It takes apt-get, dpkg, g++ (no newer than that of Debian 12), 26 MB a release from Debian's mirror the first time, and the capbench that
`rt ci` leaves; or with --library out/c/libbaybowl.a, which `tools/dev c-library` builds.
"""

from pathlib import Path

from . import ceph, count_mds, mds_capd, mds_real
from .mds_compare import Case, Comparison, Unlike
from .mds_questions import Picks, Text
from .places import CAPBENCH, be_there

# How many texts are asked at once, and how many questions on each.
TEXTS, QUESTIONS = 1000, 4


class Asked:
    """The program of a release, beside capd."""

    def __init__(self, release, preloaded, given):
        self.release = release
        program = ceph.Program(release, given.packages)
        program.fetch(given.mirror)
        self.words = program.words(preloaded)
        self.comparison = Comparison(release)

    def compare(self, cases):
        """Compares what both say in these cases, up to the first difference."""
        told = iter(mds_real.answers(self.words, [(text, case.questions) for case in cases for text in case.texts()]))
        for case in cases:
            self.comparison.compare(case, [next(told) for _ in case.texts()])


def ask_capd(capd, texts, releases):
    """What capd says to questions on texts, as cases of each release."""
    told = iter(capd.answers([words for text, questions in texts for words in mds_capd.all_words(text.text, questions, releases)]))
    found = {release: [] for release in releases}
    for text, questions in texts:
        own = [next(told).object_or_fault() for _ in questions]
        for release in releases:
            by_release = [next(told).object_or_fault() for _ in questions]
            found[release].append(Case(text, questions, by_release, own, next(told)))
    return found


def cases_of_forms(capd, release, cases):
    """The cases of forms that have another order than what they are forms of."""
    before = [case for case in cases if case.is_reordered()]
    if not before:
        return []
    texts = [(Text(case.form.line(), ()), case.questions) for case in before]
    made = ask_capd(capd, texts, [release])[release]
    return [Case(case.text, case.questions, case.by_release, case.own, case.form, was) for case, was in zip(made, before)]


def arguments(parser):
    ceph.arguments(parser)
    beside = parser.add_mutually_exclusive_group()
    beside.add_argument("--release", type=int, choices=sorted(ceph.RELEASES), help="of this one alone")
    parser.add_argument("--questions", type=int, default=200000, metavar="N", help="how many, of each (%(default)s)")
    parser.add_argument("--seed", type=int, default=1, metavar="N", help="ask other questions")
    parser.add_argument("--capbench", type=Path, metavar="FILE", help="the program that asks capd, where another is to")
    beside.add_argument("--library", action="store_true", help="ask the library for C, beside Ceph 16")


def main(given):
    if given.library:
        return count_mds.ask_library(given)
    if given.capbench is None:
        be_there(CAPBENCH)
    preloaded = mds_real.build()
    releases = [ceph.RELEASES[number] for number in ([given.release] if given.release else sorted(ceph.RELEASES))]
    asked = [Asked(release, preloaded, given) for release in releases]
    picks, capd = Picks(given.seed), mds_capd.Capd(given.capbench or CAPBENCH, mds_real.OUT / "asked.talk")
    for left in range(given.questions, 0, -TEXTS * QUESTIONS):
        texts = [picks.text() for _ in range(min(TEXTS, -(-left // QUESTIONS)))]
        cases = ask_capd(capd, [(text, [picks.question(text.text) for _ in range(QUESTIONS)]) for text in texts], releases)
        for it in asked:
            try:
                it.compare([*cases[it.release], *cases_of_forms(capd, it.release, cases[it.release])])
            except Unlike as unlike:
                print(f"{unlike}\n{it.comparison.tell(1)}")
                return 1
    for it in asked:
        print(it.comparison.tell(0))
    return 0
