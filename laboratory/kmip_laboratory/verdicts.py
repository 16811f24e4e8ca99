"""Verdicts of the auditor, read from the lines that it prints (docs/PROFILE.md, docs/EXPLAINING.md); and what it tells
in JSON of the files that it read (docs/JSON.md)."""

from __future__ import annotations

import json
import re
from enum import Enum
from typing import Any, NamedTuple, Optional, Pattern


class Outcome(Enum):
    """What the auditor answered."""

    YES = "yes"
    NO = "no"
    OUTSIDE = "outside"
    WITNESS = "witness"
    MALFORMED = "malformed"
    GAVE_UP = "gave up"
    DEVICE = "device"
    MEMORY = "memory"
    LATE = "late"
    BUT_FOR = "yes but for"
    EXPLAINED = "explained"
    NOTHING_JUDGED = "nothing judged"
    CONVICTED = "convicted"
    SUSPECTED = "suspected"
    UNDECIDED = "undecided"
    DIFFERS = "differs"


PATTERNS: dict[Outcome, Pattern[str]] = {
    Outcome.YES: re.compile(r"yes(?:: (?P<steps>\d+) steps)?(?:\njudged: .+)?"),
    Outcome.BUT_FOR: re.compile(r"yes but for \d+ items\njudged: .+"),
    Outcome.NO: re.compile(r"no: turn (?P<turn>\d+) call (?P<call>\d+) item (?P<item>\d+) why (?P<number>\d+) "
                           r"(?P<name>\w+)\nat (?P<date>\S+)"),
    Outcome.OUTSIDE: re.compile(r"outside: call (?P<call>\d+) (?P<side>request|response) item (?P<item>\d+) kind "
                                r"(?P<number>\d+) (?P<name>.+)"),
    Outcome.WITNESS: re.compile(r"witness: at (?P<turn>\d+) kind (?P<number>\d+) (?P<name>\w+)"),
    Outcome.MALFORMED: re.compile(r"malformed: (?P<file>\w+) offset (?P<offset>\d+) kind (?P<number>\d+) (?P<name>.+)"),
    Outcome.GAVE_UP: re.compile(r"gave up: (?P<steps>\d+) steps"),
    Outcome.DEVICE: re.compile(r"device"),
    Outcome.MEMORY: re.compile(r"memory"),
}


NUMBERS = ("turn", "call", "item", "number", "steps")
# The others explain it.
LINES_OF_A_NO = 2
# The second line of a yes by a declaration that sets aside what isn't judged.
TALLY = "judged: "
# Of a giving up: that it has decided, and the first call that may be next at the deepest place, and can't be.
DECIDED = "decided: "
NEXT = re.compile(r"next: call (?P<call>\d+) item (?P<item>\d+) why (?P<number>\d+) (?P<name>\w+)")
# Of a sealed transcript, behind all others: which recording and segment it is, and its last seal.
SEALED = re.compile(r"sealed: (?P<recording>.*) segment (?P<segment>\d+) head (?P<head>[0-9a-f]{64})"
                    r"(?P<torn> torn(?: after \d+ bytes)?)?")


class Seal(NamedTuple):
    """What the auditor tells of a sealed transcript: its line, the recording, the segment and the head in it, and
    whether the close was missing."""

    line: str
    recording: str
    segment: int
    head: str
    is_torn: bool


class Digest(NamedTuple):
    """A file that was judged: its part in the run, its length, and its SHA-256 in hexadecimal digits. The last two are
    not there of a file that was not read to its end."""

    role: str
    length: Optional[int]
    sha256: Optional[str]


class Verdict(NamedTuple):
    """An answer: the lines as they were printed, the status, and what the lines name. A number that they do not name
    is None. What is explained has the lines of that; and of a search that gave up it is known then whether that says
    that no order explains the transcript, and `call` to `name` are those of the first call that can't be next. What is
    told of a sealed transcript stands in none of these lines, but in `seal`."""

    outcome: Outcome
    lines: list[str]
    status: int
    turn: Optional[int] = None
    call: Optional[int] = None
    item: Optional[int] = None
    number: Optional[int] = None
    name: str = ""
    side: str = ""
    date: str = ""
    steps: Optional[int] = None
    decided: Optional[bool] = None
    explanation: tuple[str, ...] = ()
    seal: Optional[Seal] = None

    def decides(self, budget: int) -> bool:
        """Whether a search with this budget has decided. Giving up with steps left is a decision, where no call is
        open, unordered or wants a payload."""
        return self.outcome is not Outcome.GAVE_UP or (self.steps or 0) < budget

    @property
    def text(self) -> str:
        """The lines in one."""
        return ", ".join(self.lines)

    @property
    def printed(self) -> list[str]:
        """The lines with that of a sealed transcript."""
        return [*self.lines, *([self.seal.line] if self.seal else [])]


def read_verdict(printed: str, status: int) -> Optional[Verdict]:
    """The verdict that these lines are; None where they are none."""
    lines, seal = seal_apart(printed)
    verdict = _verdict(lines, status)
    return verdict and verdict._replace(seal=seal)


def seal_apart(printed: str) -> tuple[list[str], Optional[Seal]]:
    """The lines, and that of a sealed transcript behind them, where there is one."""
    lines = printed.rstrip("\n").splitlines()
    found = SEALED.fullmatch(lines[-1]) if len(lines) > 1 else None
    if found is None:
        return lines, None
    return lines[:-1], Seal(found[0], found["recording"], int(found["segment"]), found["head"], bool(found["torn"]))


def _verdict(lines: list[str], status: int) -> Optional[Verdict]:
    for outcome, pattern in PATTERNS.items():
        found = pattern.fullmatch("\n".join(lines))
        if found:
            told: dict[str, Any] = {name: int(value) if name in NUMBERS else value
                                    for name, value in found.groupdict().items() if name in Verdict._fields and value}
            return Verdict(outcome, lines, status, **told)
    return None


def read_explained(printed: str, status: int) -> Optional[Verdict]:
    """The verdict that the first of these lines are, with the others, which explain it."""
    lines, seal = seal_apart(printed)
    told = LINES_OF_A_NO if printed.startswith("no: ") or lines[1:2] and lines[1].startswith(TALLY) else 1
    verdict = _verdict(lines[:told], status)
    verdict = verdict and verdict._replace(seal=seal)
    if verdict is None or verdict.outcome is not Outcome.GAVE_UP or len(lines) == told:
        return verdict and verdict._replace(explanation=tuple(lines[told:]))
    following = (NEXT.fullmatch(line) for line in lines)
    named = next((found for found in following if found), None)
    verdict = verdict._replace(explanation=tuple(lines[told:]), decided=lines[told].startswith(DECIDED))
    return verdict if named is None else verdict._replace(
        call=int(named["call"]), item=int(named["item"]), number=int(named["number"]), name=named["name"])


class Account(NamedTuple):
    """What a run tells in JSON besides its verdict: the auditor's version, and the files as it read them."""

    version: str
    files: tuple[Digest, ...]


def read_account(printed: str) -> Optional[Account]:
    """The account in this JSON of a check; None where there is none."""
    try:
        told = json.loads(printed)
        files = tuple(Digest(file["role"], file.get("length"), file.get("sha256")) for file in told["files"])
        return Account(f"kmip_audit {told['auditor']}", files)
    except (ValueError, KeyError, TypeError):
        return None
