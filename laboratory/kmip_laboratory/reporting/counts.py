"""What the report counts: calls by operation, client and outcome, seconds, and recordings by verdict."""

from __future__ import annotations

from collections import Counter
from typing import NamedTuple

from .figures import KINDS
from .judging import Judged, came_to, moment, operation_name, stamps
from .reasons import in_short


class Cross(NamedTuple):
    """A table of counts: what it is of, the outcomes that there are, and for each name how many had each."""

    of: str
    ends: list[str]
    rows: list[tuple[str, list[int]]]


def crosses(judged: Judged) -> list[Cross]:
    """Items by operation, and calls by client; each by what the call came to."""
    items = Counter((operation_name(piece.operation), came_to(call)) for call in judged.calls for piece in call.pieces)
    calls = Counter((call.client, came_to(call)) for call in judged.calls)
    return [_cross("Operation", items), _cross("Client", calls)]


def _cross(of: str, counts: Counter[tuple[str, str]]) -> Cross:
    ends = [word for word in KINDS if any(end == word for _, end in counts)]
    names = sorted({name for name, _ in counts})
    return Cross(of, ends, [(name, [counts[(name, end)] for end in ends]) for name in names])


def period(judged: Judged) -> str:
    """How many calls, and from when to when, in a sentence."""
    seen = stamps(judged.calls)
    calls = _many(len(judged.calls), "call")
    if not seen:
        return f"{calls}, none with a Time Stamp."
    seconds = _many(max(seen) - min(seen) + 1, "second")
    return f"{calls}; Time Stamps from {moment(min(seen))} to {moment(max(seen))}, {seconds}."


def _many(count: int, what: str) -> str:
    return f"{count:,} {what}" if count == 1 else f"{count:,} {what}s"


def by_verdict(recordings: list[Judged]) -> list[tuple[str, int]]:
    """The verdicts in short, and how many recordings have each; the most frequent first."""
    return Counter(in_short(judged.verdict) for judged in recordings).most_common()
