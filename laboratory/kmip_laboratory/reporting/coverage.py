"""What stands behind a verdict: which calls, items and objects were judged, by operation and by Result Reason."""

from __future__ import annotations

from collections import Counter
from typing import Counter as Counts, NamedTuple

from ..calls import Call, Status
from ..enumerations import STATUSES
from ..operations import operation_name
from ..tags import Tag
from ..ttlv import Kind
from ..verdicts import Outcome, Verdict
from .exercised import reason_name
from .lives import Lives, Seen
from .steps import BIRTHS

NOT_JUDGED = "not judged"
ENDS = [*(STATUSES[status].lower() for status in (Status.SUCCESS, Status.FAILED, Status.UNDONE)), NOT_JUDGED]
REFUSED_MESSAGE = ", of a refused message"
# Verdicts on an order in which nothing stops at what is impossible.
BY_JUDGING = (Outcome.EXPLAINED, Outcome.NOTHING_JUDGED, Outcome.CONVICTED, Outcome.SUSPECTED)


class Share(NamedTuple):
    """How much of a kind was judged, and how much there is."""

    of: str
    judged: int
    all: int


class Coverage(NamedTuple):
    """How much was judged; items by operation, with how many had each end; and refusals by Result Reason."""

    shares: list[Share]
    operations: list[tuple[str, list[int]]]
    reasons: list[tuple[str, int]]


class Covering:
    """Counts what was judged. `judged` are the numbers of the calls that were."""

    def __init__(self, judged: frozenset[int]) -> None:
        self._judged = judged
        self._calls: Counts[bool] = Counter()
        self._items: Counts[tuple[str, str]] = Counter()
        self._reasons: Counts[str] = Counter()
        self._objects: tuple[set[str], set[str]] = (set(), set())

    def call(self, call: Call) -> None:
        """Counts a call and its items by how they ended."""
        is_judged = call.number in self._judged
        self._calls[is_judged] += 1
        for piece in call.pieces:
            end = STATUSES.get(-1 if piece.status is None else piece.status, "").lower()
            name = operation_name(piece.operation) if piece.operation is not None else "no operation"
            self._items[name, end if is_judged and end in ENDS else NOT_JUDGED] += 1
            if is_judged and piece.status == Status.FAILED:
                self._reasons[reason_name(piece.reason) + (REFUSED_MESSAGE if call.refused else "")] += 1

    def take(self, call: Call, seen: Seen, lives: Lives) -> None:
        """Notes the objects of an item that are there, or that it makes. An identifier that nothing has is none."""
        step = seen.step
        told = [item.value for item in step.told.every(Tag.UNIQUE_IDENTIFIER, Kind.TEXT)] if step.told else []
        makes = step.operation in BIRTHS and step.has_succeeded
        named = [name for name in (seen.identifier, *told) if name is not None and (makes or lives.holds(name))]
        self._objects[1].update(named)
        if call.number in self._judged:
            self._objects[0].update(named)

    def coverage(self) -> Coverage:
        """What was counted."""
        items = sum(count for (_, end), count in self._items.items() if end != NOT_JUDGED)
        judged, named = map(len, self._objects)
        shares = [Share("calls", self._calls[True], sum(self._calls.values())),
                  Share("items", items, sum(self._items.values())), Share("objects", judged, named)]
        names = sorted({name for name, _ in self._items})
        return Coverage(shares, [(name, [self._items[name, end] for end in ENDS]) for name in names],
                        sorted(self._reasons.items()))


def judged_calls(verdict: Verdict, calls: list[Call], turns: dict[int, int]) -> frozenset[int]:
    """The calls that a verdict speaks of: at a yes and by judging those of the order, at a no those up to the refused
    one, and where a search decided that there is no order all that have ended. Else none was judged."""
    if verdict.outcome in (Outcome.YES, *BY_JUDGING):
        return frozenset(turns)
    if verdict.outcome is Outcome.NO:
        return frozenset(call for call, turn in turns.items() if turn <= (verdict.turn or 0))
    if verdict.decided:
        return frozenset(call.number for call in calls if call.end is not None)
    return frozenset()


def in_words(coverage: Coverage) -> str:
    """How much was judged, in a sentence."""
    told = [f"{share.judged:,} of {share.all:,} {share.of}" for share in coverage.shares]
    return f"Judged: {', '.join(told[:-1])} and {told[-1]}."
