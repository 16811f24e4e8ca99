"""One recording, judged by the auditor, with what the page shows of its calls."""

from __future__ import annotations

import hashlib
import os
import tempfile
import time
from datetime import datetime, timedelta, timezone
from pathlib import Path
from typing import NamedTuple, Optional, Union

from ..auditor import Auditor
from ..calls import Call, Status, read_transcript
from ..files import write_file
from ..judgement import Judgement
from ..operations import operation_name as standard_name
from ..paths import quoted, see_plain, shown
from ..recording.order import turns
from ..recordings import DECLARATION, TRANSCRIPT, WITNESS
from ..records import read_file
from ..shrinking.parts import is_plain
from ..trouble import Trouble
from ..verdicts import Account, Digest, Outcome, Verdict
from .basis import Basis, read_basis
from .explanation import Mention, mentions
from .found import Files, Found, found_of, verdict_of
from .messages import Messages, read_messages

# Of a search where no other is given.
USUAL_BUDGET = 1_000_000
# Of each run of the auditor.
USUAL_SECONDS = 300
# The calls ahead of the deepest place of a search, which are no more to blame than any others.
TAKEN = "taken: "
EPOCH = datetime(1970, 1, 1, tzinfo=timezone.utc)


class Read(NamedTuple):
    """The calls of a recording, the turn of each in the order that was judged or found, their messages, and what a
    verdict on them rests on."""

    calls: list[Call]
    turns: dict[int, int]
    messages: Messages
    basis: Optional[Basis] = None


class Judged(NamedTuple):
    """A recording: its folder, the verdict with the words of the command that repeats it, what the auditor told of the
    files, its files with their digests, and what was read of it; of an order that is refused what a search for others
    says, where that was asked; of one that was judged without an order what was found; and what else is to be said of
    it."""

    folder: str
    verdict: Verdict
    words: list[str]
    account: Account
    files: list[tuple[str, int, str]]
    read: Read
    seconds: float
    searched: Optional[Verdict] = None
    found: Optional[Found] = None
    note: str = ""

    @property
    def calls(self) -> list[Call]:
        """The calls, by their begin marks."""
        return self.read.calls

    @property
    def turns(self) -> dict[int, int]:
        """The turn of each call in the order that was judged or found."""
        return self.read.turns

    def has_the_auditors_digests(self) -> bool:
        """Whether the auditor told the digest of each file."""
        told = [judged for judged in self.account.files if judged.sha256 is not None]
        return len(told) >= len(self.files)

    @property
    def command(self) -> str:
        """The command that repeats the verdict, as bash takes it."""
        return " ".join(self.words)

    @property
    def is_convicted(self) -> bool:
        """Whether the auditor says no: to the order that is given, where no search finds another, or to all of them."""
        if self.verdict.outcome is Outcome.NO:
            return self.searched is None or self.searched.outcome is not Outcome.YES
        return bool(self.verdict.decided) or self.verdict.outcome in (Outcome.CONVICTED, Outcome.DIFFERS)

    @property
    def is_explained(self) -> bool:
        """Whether an order explains every answer that is judged."""
        return self.verdict.outcome in (Outcome.YES, Outcome.EXPLAINED)

    @property
    def printed(self) -> list[str]:
        """All lines of the auditor's, but for that of a sealed transcript."""
        seal = [self.verdict.seal.line] if self.verdict.seal else []
        if self.found:
            return [line for line in self.found.judgement.lines if line not in seal]
        return [*self.verdict.lines, *self.verdict.explanation]

    def faults(self) -> list[int]:
        """The calls that the verdict names."""
        if self.found:
            return list(dict.fromkeys(finding.call for finding in self.found.findings))
        return [] if self.verdict.call is None else [self.verdict.call]

    def refused(self) -> Optional[Call]:
        """The call that the verdict names first."""
        return self.call(self.verdict.call)

    def call(self, number: Optional[int]) -> Optional[Call]:
        """The call with this number."""
        return next((call for call in self.calls if call.number == number), None)

    def mentions(self, text: str) -> list[Mention]:
        """The places in a text of the auditor's that lead to calls."""
        return list(mentions(text, {call.number for call in self.calls}, self.turns))

    def named(self) -> list[int]:
        """The calls that stand out beside the refused one: those that the explanation names, or else the story's."""
        told = self._explanation()
        if told or self.found:
            lines = [line for line in told if not line.startswith(TAKEN)]
            return sorted({place.call for place in self.mentions("\n".join(lines))})
        return [call.number for call in self.story()]

    def naming(self) -> str:
        """What those have in common, for a legend."""
        return "named by the explanation" if self._explanation() else "names the same object"

    def _explanation(self) -> list[str]:
        """All that the auditor explains."""
        findings = self.found.findings if self.found else []
        return [*self.verdict.explanation, *(line for finding in findings for line in finding.explanation)]

    def story(self) -> list[Call]:
        """The calls that name an object of the refused call, up to it: by turns, or else by begin marks."""
        refused = self.refused()
        if refused is None:
            return []
        objects = identifiers(refused)
        last = self._rank(refused)
        return sorted((call for call in self.calls if identifiers(call) & objects and self._rank(call) <= last),
                      key=self._rank)

    def _rank(self, call: Call) -> tuple[int, int]:
        return (self.turns.get(call.number, len(self.turns) + 1), call.begin)


def find(paths: list[str]) -> list[str]:
    """The folders with a transcript at or below these, in order."""
    found: list[str] = []
    for path in paths:
        below = sorted(str(file.parent) for file in Path(path).rglob(TRANSCRIPT))
        if not below:
            raise Trouble(f"{shown(path)} has no {TRANSCRIPT} in it or below it: give the folder of a recording")
        found += [folder for folder in below if folder not in found]
    for folder in found:
        for name in (TRANSCRIPT, DECLARATION, WITNESS):
            see_plain(os.path.join(folder, name))
    return found


class Asking(NamedTuple):
    """How the auditor is asked: its program, the most steps of a search, the seconds that each of its runs is given,
    whether other orders are searched where one is refused, and whether all values of messages may be seen."""

    budget: Optional[int] = None
    others: bool = False
    seconds: Optional[float] = USUAL_SECONDS
    program: Optional[str] = None
    with_keys: bool = False


def judge(folder: str, asking: Asking) -> Judged:
    """Asks the auditor: a check where there is a witness, else a search; and of a witness that is refused a search
    too, where other orders are asked for. Where nothing is declared it judges what the calls show."""
    if not os.path.exists(os.path.join(folder, DECLARATION)):
        return _judge_undeclared(folder, asking)
    auditor = Auditor(asking.program, asking.seconds)
    paths = [os.path.join(folder, name) for name in (TRANSCRIPT, DECLARATION, WITNESS)]
    files = [_digest(path) for path in paths if path != paths[2] or os.path.exists(path)]
    started = time.monotonic()
    with tempfile.TemporaryDirectory(prefix="kmip_report-") as made:
        transcript, declaration, witness = _readable_names(folder, made)
        is_checked = len(files) == len(paths)
        witness = witness if is_checked else os.path.join(made, WITNESS)
        more = ["--budget", str(asking.budget)] if not is_checked and asking.budget is not None else []
        verdict = auditor.explained("check" if is_checked else "search", transcript, declaration, witness, *more,
                                    *([] if is_checked else ["--quiet"]))
        more += ["--explain"] if verdict.explanation else []
        searched = (auditor.search(transcript, declaration, os.path.join(made, "other"), asking.budget)
                    if asking.others and verdict.outcome is Outcome.NO else None)
        seconds = time.monotonic() - started
        account = _account(auditor, transcript, declaration, witness)
        _see_that_they_are_the_judged(files, account.files)
        read = _read(auditor, verdict, (transcript, declaration, witness), asking.with_keys)
    if searched:
        searched = searched._replace(decided=_decides(searched, asking.budget, read.calls))
    return Judged(folder, verdict, _words(folder, is_checked, more), account, files, read, seconds, searched)


def _judge_undeclared(folder: str, asking: Asking) -> Judged:
    """What is found in a recording of which nobody says what the server held."""
    started = time.monotonic()
    with tempfile.TemporaryDirectory(prefix="kmip_report-") as made:
        transcript = _readable_names(folder, made)[0]
        files = Files(Path(transcript), None, Path(made, DECLARATION), Path(made, WITNESS))
        auditor = Auditor(asking.program, asking.seconds)
        found = auditor.judge(transcript, None, str(files.witness), str(files.used), asking.budget or USUAL_BUDGET)
        return judged_of(folder, found, files, asking)._replace(seconds=time.monotonic() - started)


def unread(path: str, verdict: Verdict, words: list[str], asking: Asking) -> Judged:
    """A file of which the auditor said this, at these words, and of whose calls nothing is shown."""
    account = Account(Auditor(asking.program, asking.seconds).version(), ())
    return Judged(path, verdict, words, account, [_digest(path)], Read([], {}, Messages([], {})), 0.0)


def judged_of(folder: str, judgement: Union[Judgement, Verdict], files: Files, asking: Asking) -> Judged:
    """A recording that was judged so, by these files."""
    auditor = Auditor(asking.program, asking.seconds)
    declaration = str(files.declaration) if files.declaration else None
    verdict = judgement if isinstance(judgement, Verdict) else verdict_of(judgement)
    names = [os.path.join(folder, TRANSCRIPT), *([os.path.join(folder, DECLARATION)] if declaration else [])]
    budget = [] if asking.budget is None else ["--budget", str(asking.budget)]
    words = ["kmip_audit", "judge", *map(quoted, names), *budget]
    digests = [_digest(name) for name in names]
    account = Account(auditor.version(), ())
    if isinstance(judgement, Verdict):
        return Judged(folder, verdict, words, account, digests, Read([], {}, Messages([], {})), 0.0)
    calls = read_transcript(str(files.transcript)).calls
    order = _turns(str(files.witness)) if files.witness.exists() else {}
    asides = (auditor.asides(str(files.transcript), declaration, asking.budget or USUAL_BUDGET)
              if judgement.has_asides else [])
    found = found_of(judgement, asides, calls, order)
    basis = read_basis(verdict, calls, str(files.used), str(files.witness), found.why)
    read = Read(calls, order, read_messages(auditor, str(files.transcript), asking.with_keys), basis)
    return Judged(folder, verdict, words, account, digests, read, 0.0, found=found)


def _read(auditor: Auditor, verdict: Verdict, files: tuple[str, str, str], with_keys: bool) -> Read:
    """What can be read of a recording's files, where it has this verdict."""
    transcript, declaration, witness = files
    order = _turns(witness) if os.path.exists(witness) and verdict.outcome is not Outcome.MALFORMED else {}
    if verdict.outcome in (Outcome.MALFORMED, Outcome.DEVICE, Outcome.MEMORY):
        return Read([], order, Messages([], {}))
    calls = read_transcript(transcript).calls
    return Read(calls, order, read_messages(auditor, transcript, with_keys),
                read_basis(verdict, calls, declaration, witness))


def _readable_names(folder: str, made: str) -> list[str]:
    """The three files by names that the auditor takes: where that of the folder is no UTF-8, behind a link."""
    if shown(folder) != folder:
        link = os.path.join(made, "recording")
        os.symlink(os.path.abspath(folder), link)
        folder = link
    return [os.path.join(folder, name) for name in (TRANSCRIPT, DECLARATION, WITNESS)]


def _words(folder: str, is_checked: bool, more: list[str]) -> list[str]:
    """The words of the command that repeats the verdict, as bash takes them."""
    ahead, within = ([], folder) if shown(folder) == folder else (["cd", quoted(folder), "&&"], "")
    names = [os.path.join(within, name) for name in (TRANSCRIPT, DECLARATION)]
    names.append(os.path.join(within, WITNESS) if is_checked else WITNESS)
    return [*ahead, "kmip_audit", "check" if is_checked else "search", *map(quoted, names), *more]


def _account(auditor: Auditor, transcript: str, declaration: str, witness: str) -> Account:
    """What the auditor tells of the files that it reads: of all three, or of the first two where no witness was found,
    since an empty one says nothing of them."""
    if not os.path.exists(witness):
        write_file(witness, b"")
        try:
            return auditor.account(transcript, declaration, witness) or Account(auditor.version(), ())
        finally:
            os.remove(witness)
    return auditor.account(transcript, declaration, witness) or Account(auditor.version(), ())


def _decides(searched: Verdict, budget: Optional[int], calls: list[Call]) -> bool:
    """Whether this search tells whether an order explains the calls."""
    usual = USUAL_BUDGET if budget is None else budget
    return searched.outcome is Outcome.YES or (searched.decides(usual) and all(map(is_plain, calls)))


def _see_that_they_are_the_judged(files: list[tuple[str, int, str]], told: tuple[Digest, ...]) -> None:
    """Holds the digests that the auditor told against those of the files."""
    for (path, length, sha256), judged in zip(files, told):
        if judged.sha256 is not None and (length, sha256) != (judged.length, judged.sha256):
            raise Trouble(f"{shown(path)} is not what was judged: it has changed since, or the auditor is not one; "
                          "make the report again")


def _digest(path: str) -> tuple[str, int, str]:
    data = read_file(path)
    return path, len(data), hashlib.sha256(data).hexdigest()


def _turns(path: str) -> dict[int, int]:
    """The turn of each call in a witness."""
    return {call: turn for turn, call in enumerate(turns(path), 1)}


def identifiers(call: Call) -> frozenset[str]:
    """The objects that a call names."""
    return frozenset().union(*(piece.identifiers | piece.answered for piece in call.pieces))


def operations(call: Call) -> str:
    """What a call asks, in words."""
    told: dict[str, int] = {}
    for piece in call.pieces:
        name = operation_name(piece.operation)
        told[name] = told.get(name, 0) + 1
    return ", ".join(name if count == 1 else f"{name} x{count}" for name, count in told.items()) or "unreadable"


def operation_name(number: Optional[int]) -> str:
    """The name of an operation, or its number."""
    if number is None:
        return "no operation"
    return standard_name(number)


def came_to(call: Call) -> str:
    """What a call came to, in a word."""
    if call.end is None:
        return "open"
    if call.refused:
        return "refused"
    statuses = {piece.status for piece in call.pieces}
    if Status.UNDONE in statuses:
        return "undone"
    if Status.FAILED in statuses:
        return "failed"
    return "success"


def moment(seconds: int) -> str:
    """A Time Stamp as a date."""
    try:
        return (EPOCH + timedelta(seconds=seconds)).strftime("%Y-%m-%dT%H:%M:%SZ")
    except OverflowError:
        return str(seconds)


def moment_of_making(told: Optional[str]) -> datetime:
    """The moment at which the report is made; SOURCE_DATE_EPOCH sets it."""
    return EPOCH + timedelta(seconds=int(told)) if told and told.isdecimal() else datetime.now(timezone.utc)


def stamps(calls: list[Call]) -> list[int]:
    """The Time Stamps that are there."""
    return [call.stamp for call in calls if call.stamp is not None]
