"""What `kmip_audit judge` says of a recording, read from the lines that it prints (docs/JUDGING.md)."""

from __future__ import annotations

import json
import re
from enum import Enum
from typing import Any, Iterator, NamedTuple, Optional

from .verdicts import Outcome, Seal, Verdict, read_verdict, seal_apart


class Sort(Enum):
    """How a recording is judged."""

    EXPLAINED = "explained"
    NOTHING_JUDGED = "nothing judged"
    CONVICTED = "convicted"
    SUSPECTED = "suspected"
    UNDECIDED = "undecided"


FIRST = re.compile(r"(explained|nothing judged|convicted|suspected|undecided)(?:: \d+ findings(?:, \d+ steps)?)?")
FINDING = re.compile(r"finding \d+: turn (?P<turn>\d+) call (?P<call>\d+) item (?P<item>\d+) why (?P<number>\d+) "
                     r"(?P<name>\w+)")
DATE = re.compile(r"at (\S+)")
PASSED = re.compile(r"passed: (?P<operation>.+) (?P<items>\d+) items")
ASIDE = "aside: "
COUNTED = "judged: "
TALLY = re.compile(r"judged: (?P<judged>\d+) of (?P<all>\d+) items; set aside: (?P<request>\d+) by request, "
                   r"(?P<answer>\d+) by answer, (?P<witness>\d+) by witness, (?P<object>\d+) by object")
# A line that says what a finding means stands behind these.
DEEPER = "  "


class Finding(NamedTuple):
    """An answer that is impossible where its turn stands: the line that tells it, what that names, the Time Stamp of
    the answer, and the lines that say what it means."""

    line: str
    turn: int
    call: int
    item: int
    number: int
    name: str
    date: str
    explanation: tuple[str, ...] = ()


class Aside(NamedTuple):
    """An identifier of which nothing is judged, and the item since which that is so; without an operation where the
    call can't be read."""

    identifier: str
    call: int
    item: int
    operation: str

    @property
    def since(self) -> str:
        """The item, in words."""
        return f"call {self.call} item {self.item} {self.operation}".rstrip()


class Judgement(NamedTuple):
    """What was said of a recording: its sort, all lines as they were printed, the status, and what was found; the line
    that tells how many items were judged, the operations that were passed with their items, and of a sealed transcript
    what is told of it."""

    sort: Sort
    lines: list[str]
    status: int
    findings: list[Finding]
    tally: str = ""
    passed: tuple[tuple[str, int], ...] = ()
    seal: Optional[Seal] = None

    @property
    def head(self) -> list[str]:
        """The lines that tell neither a finding nor what wasn't judged."""
        told = [line for finding in self.findings for line in (finding.line, f"at {finding.date}")]
        ahead = ("passed: ", ASIDE, COUNTED, ".. ", DEEPER, "sealed: ")
        return [line for line in self.lines if line not in told and not line.startswith(ahead)]

    @property
    def has_asides(self) -> bool:
        """Whether something is told to be set aside."""
        return any(line.startswith(ASIDE) for line in self.lines)


def read_judgement(printed: str, status: int) -> Optional[Judgement]:
    """What these lines say; None where they are no judgement."""
    lines = printed.rstrip("\n").splitlines()
    found = FIRST.fullmatch(lines[0]) if lines else None
    if found is None:
        return None
    findings = [told for place in range(len(lines)) for told in _finding(lines, place)]
    passed = [(told["operation"], int(told["items"])) for told in map(PASSED.fullmatch, lines) if told]
    tally = next((line for line in lines if line.startswith(COUNTED)), "")
    return Judgement(Sort(found[1]), lines, status, findings, tally, tuple(passed), seal_apart(printed)[1])


def read_asides(printed: str) -> list[Aside]:
    """The identifiers that this JSON of a judgement tells to be set aside."""
    try:
        return [_aside(told) for told in json.loads(printed).get("aside", [])]
    except (ValueError, KeyError, TypeError, AttributeError):
        return []


def _aside(told: dict[str, Any]) -> Aside:
    operation = told.get("operation", "")
    name = operation.get("name", "") if isinstance(operation, dict) else operation
    return Aside(str(told["identifier"]), int(told["call"]), int(told["item"]), str(name))


def read_fault(printed: str, status: int) -> Optional[Verdict]:
    """The fault of a file that stands in the place of a judgement; None where there is none."""
    verdict = read_verdict(printed, status)
    faults = (Outcome.MALFORMED, Outcome.DEVICE, Outcome.MEMORY)
    return verdict if verdict and verdict.outcome in faults else None


def _finding(lines: list[str], place: int) -> list[Finding]:
    """The finding that the line at this place tells, if it tells one."""
    found = FINDING.fullmatch(lines[place])
    if found is None:
        return []
    date = DATE.fullmatch(lines[place + 1]) if place + 1 < len(lines) else None
    turn, call, item, number = (int(found[name]) for name in ("turn", "call", "item", "number"))
    return [Finding(found[0], turn, call, item, number, found["name"], date[1] if date else "",
                    tuple(_deeper(lines[place + 2:])))]


def _deeper(lines: list[str]) -> Iterator[str]:
    """The first of these lines that say what a finding means."""
    for line in lines:
        if not line.startswith(DEEPER):
            return
        yield line[len(DEEPER):]
