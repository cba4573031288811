"""What the real code of a ceph-mds says, beside what capd says of that release."""

import shlex
from collections import Counter
from dataclasses import dataclass

from . import mds_capd
from .mds_questions import Text
from .mds_real import Read, Unread


@dataclass(frozen=True)
class Case:
    """A text with its questions, and what capd says to each by the rules of the release and by the eleven, an object or a fault; the form of the
    text that the release reads; and if the text is itself such a form, the case of what it is a form of."""

    text: Text
    questions: list
    by_release: list
    own: list
    form: mds_capd.Came
    before: "Case | None" = None

    def is_reordered(self):
        """Whether the release reads it only by its form."""
        return self.form.is_good() and isinstance(self.by_release[0], str)

    def texts(self):
        """The text, each of its grants alone, and its form."""
        return [self.text.text, *self.text.grants, *([self.form.line()] if self.form.is_good() else [])]


class Unlike(Exception):
    """A difference: the words by which capd is asked, and what both say."""

    def __init__(self, words, real, ours):
        super().__init__(f"capd {' '.join(map(shell_word, words))}\nreal: {real}\ncapd: {ours}")


def shell_word(word):
    """A word as a shell takes it."""
    if word.isascii() and word.decode().isprintable():
        return shlex.quote(word.decode())
    return "$'" + "".join(chr(byte) if 32 <= byte < 127 and byte not in b"'\\" else f"\\x{byte:02x}" for byte in word) + "'"


class Comparison:
    """The comparison with a release, and how often what came of it."""

    def __init__(self, release):
        self.release = release
        self.asked = 0
        self.counts = Counter()

    def compare(self, case, told):
        """Compares all of a case with what the real code says of its texts."""
        whole, singles = told[0], told[1 : 1 + len(case.text.grants)]
        self.compare_text(case, whole)
        for at, question in enumerate(case.questions):
            self.asked += case.before is None
            self.compare_own(case, question, whole, at)
            if isinstance(whole, Read):
                self.compare_verdict(case, question, whole, at)
                self.compare_grant(case, question, whole, singles, at)
        self.compare_form(case, whole, told[-1])

    def compare_text(self, case, whole):
        """Whether the text is read, and up to where."""
        self.counts["text read" if isinstance(whole, Read) else "text not read"] += 1
        for question, ours in zip(case.questions, case.by_release):
            is_read = not isinstance(ours, str)
            if is_read != isinstance(whole, Read) or (not is_read and not self.is_at(ours, whole.place)):
                raise Unlike(mds_capd.explain_words(case.text.text, question, self.release), whole, ours)

    def is_at(self, fault, place):
        """Whether the fault is that of a text which makes sense up to this place, where that is told."""
        wanted = f"capd: grants: not read by Ceph {self.release.version} at "
        return fault.startswith(wanted) and place in (None, int(fault.removeprefix(wanted)))

    def compare_verdict(self, case, question, whole, at):
        verdict, ours = whole.verdict(question, at), case.by_release[at]
        self.counts[verdict] += 1
        if ours["verdict"] != verdict:
            raise Unlike(mds_capd.explain_words(case.text.text, question, self.release), f"{verdict}, {whole}", ours)

    def compare_grant(self, case, question, whole, singles, at):
        """By which grant first it is allowed. Each is asked alone, of the clients in the networks that it names; where a comma or a quote makes
        other grants of the text, they tell nothing."""
        if len(singles) < 2 or not all(isinstance(it, Read) for it in singles) or len(whole.grants()) != len(singles):
            return
        ours = case.by_release[at]
        match ours["verdict"]:
            case "allowed":
                by = [number for number, grant in enumerate(singles, 1) if grant.allows(at)]
            case "depends-on-address":
                by = [number for number, grant in enumerate(singles, 1) if grant.may_allow(at)]
            case _:
                return
        self.counts["first grant told"] += 1
        if ours["grant"] != by[0]:
            raise Unlike(mds_capd.explain_words(case.text.text, question, self.release), f"by grant {by[0]}, {singles}", ours)

    def compare_own(self, case, question, whole, at):
        """What is said by the eleven rules, and of the release beside that; and of a form the same as of what it is a form of."""
        ours = case.own[at]
        words = mds_capd.explain_words(case.text.text, question)
        if case.before is not None:
            before = case.before.own[at]
            if any(ours[name] != before[name] for name in ("verdict", "grant", "rules") if name in before):
                raise Unlike(words, "a form", f"{ours}, but of {case.before.text.text} {before}")
        if isinstance(ours, str):
            return
        verdict, beside = self.own_and_beside(ours, question, whole, at)
        if beside != verdict:
            raise Unlike(words, f"{verdict}, {whole}", ours)

    def own_and_beside(self, ours, question, whole, at):
        """What the release says, if its client comes to ask; and what capd says that it does beside its own answer."""
        beside = ours[f"ceph{self.release.number}"]
        verdict = whole.verdict(question, at) if isinstance(whole, Read) else "cannot-mount"
        if verdict == "cannot-mount":
            return None, None if beside is None else beside["verdict"]
        if beside is None:
            self.counts["as by the eleven rules"] += 1
            return verdict, ours["verdict"]
        self.counts[f"not as by the eleven rules: {' and '.join(filter(None, (beside['by_grant'], beside['by_access'])))}"] += 1
        return verdict, beside["verdict"]

    def compare_form(self, case, whole, formed):
        """A form is printed if the release reads the text, and it reads as the same grants."""
        words = mds_capd.form_words(self.release, case.text.text)
        if not case.form.is_good():
            if isinstance(whole, Read) or case.form.status != 1:
                raise Unlike(words, whole, case.form)
            return
        self.counts["form printed"] += 1
        if isinstance(formed, Unread) or (isinstance(whole, Read) and formed != whole):
            raise Unlike(words, f"of the form {formed}, of the text {whole}", case.form)
        if isinstance(whole, Unread):
            self.counts["form printed of what is not read"] += 1

    def tell(self, differing):
        """The counts, as lines."""
        rows = [f"  {count:9,} {what}" for what, count in sorted(self.counts.items())]
        return "\n".join([f"{self.release.version}: asked {self.asked}, differ {differing}", *rows])
