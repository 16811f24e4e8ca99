"""What the page's script needs of a recording: its calls as columns of numbers."""

from __future__ import annotations

import re

from ..calls import Call
from ..plain import plain
from .judging import Judged, came_to, identifiers, operations

KINDS = ["success", "failed", "refused", "undone", "open"]


def figures(judged: Judged, recording: int, lines: dict[str, int]) -> dict[str, object]:
    """The calls by their begin marks; the lines of messages as numbers in a table that all recordings share."""
    calls = judged.calls
    marks = {place: rank for rank, place in enumerate(sorted(_places(calls)))}
    lanes, lane_of = _lanes(calls)
    clients = sorted({call.client for call in calls}, key=_natural)
    does = sorted(set(map(operations, calls)))
    places = {name: place for place, name in enumerate(does)}
    client_of = {client: place for place, client in enumerate(clients)}
    numbers = [lines.setdefault(line, len(lines)) for line in judged.read.messages.lines]
    objects: dict[str, int] = {}
    named = [sorted(objects.setdefault(name, len(objects)) for name in sorted(identifiers(call))) for call in calls]
    why = judged.found.why if judged.found else {}
    reasons: dict[str, int] = {}
    shown = [judged.read.messages.of_call.get(call.number, ([], [])) for call in calls]
    return {
        "recording": recording, "fault": judged.verdict.call, "faults": judged.faults(), "story": judged.named(),
        "marks": len(marks), "clients": list(map(plain, clients)),
        "lanes": [client_of[client] for client in lanes], "what": does,
        "number": [call.number for call in calls], "begin": [marks[call.begin] for call in calls],
        "end": [-1 if call.end is None else marks[call.end] for call in calls],
        "lane": [lane_of[call.number] for call in calls], "kind": [KINDS.index(came_to(call)) for call in calls],
        "turn": [judged.turns.get(call.number, 0) for call in calls], "stamp": [call.stamp for call in calls],
        "objects": list(map(plain, objects)), "named": named,
        "does": [places[operations(call)] for call in calls],
        "aside": [reasons.setdefault(why[call.number], len(reasons)) if call.number in why else -1 for call in calls],
        "why": list(map(plain, reasons)), "gone": _gone(judged, objects),
        "request": [[numbers[line] for line in request] for request, _ in shown],
        "response": [[numbers[line] for line in response] for _, response in shown],
    }


def _gone(judged: Judged, objects: dict[str, int]) -> dict[int, str]:
    """Since when each object is set aside that is, by its place among all of them."""
    asides = judged.found.asides if judged.found else []
    return {objects[told.identifier]: plain(told.since) for told in asides if told.identifier in objects}


def _natural(name: str) -> list[tuple[str, int]]:
    """By which names are sorted: their numbers by what they count."""
    return [(words, int(digits) if digits.isdecimal() else 0) for words, digits in re.findall(r"(\D*)(\d*)", name)]


def _places(calls: list[Call]) -> list[int]:
    return [call.begin for call in calls] + [call.end for call in calls if call.end is not None]


def _lanes(calls: list[Call]) -> tuple[list[str], dict[int, int]]:
    """Rows for each client, as many as it had calls at once, and the row of each call."""
    free: dict[str, list[int]] = {}
    within: dict[int, int] = {}
    for call in calls:
        rows = free.setdefault(call.client, [])
        row = next((row for row, until in enumerate(rows) if until < call.begin), len(rows))
        until = 1 << 62 if call.end is None else call.end
        rows[row:row + 1] = [until]
        within[call.number] = row
    lanes: list[str] = []
    first: dict[str, int] = {}
    for client in sorted(free, key=_natural):
        first[client] = len(lanes)
        lanes += [client] * len(free[client])
    return lanes, {call.number: first[call.client] + within[call.number] for call in calls}
