"""Leaves out parts of a recording as long as no order explains the rest."""

from __future__ import annotations

from typing import Callable, Optional, Sequence, TypeVar

from ..calls import Call
from .parts import has_effect, is_plain
from .trials import Answer, Trials

T = TypeVar("T")


def smallest(units: list[T], holds: Callable[[list[T]], bool]) -> list[T]:
    """Some of these units with which it holds, and of which none can go. It holds with all of them, and with more units
    wherever it holds with fewer."""
    return [] if holds([]) else _smallest([], False, units, holds)


def _smallest(kept: list[T], grown: bool, units: list[T], holds: Callable[[list[T]], bool]) -> list[T]:
    """What is needed of these units beside those that are kept."""
    if grown and holds(kept):
        return []
    if len(units) == 1:
        return units
    left, right = units[:len(units) // 2], units[len(units) // 2:]
    of_right = _smallest(kept + left, bool(left), right, holds)
    of_left = _smallest(kept + of_right, bool(of_right), left, holds)
    return of_left + of_right


def shrunk(trials: Trials, calls: list[Call]) -> Optional[list[Call]]:
    """The smallest part that was found of calls that no order explains; None where a search decides of none."""
    calls = [call for call in calls if is_plain(call) or has_effect(call)]
    found = _start(trials, calls)
    while found is not None:
        before = len(found)
        for step in (_without_ends, _without_parts, _without_calls):
            found = step(trials, found)
        if len(found) == before:
            return found
    return None


def _start(trials: Trials, calls: list[Call]) -> Optional[list[Call]]:
    """Calls of which a search decides that no order explains them."""
    if trials.impossible(calls):
        return calls
    calls = _first(_ends_by_stamp(calls), lambda cut: trials.answer(cut)[0] is not Answer.EXPLAINED)
    if trials.impossible(calls):
        return calls
    for part in sorted({part for call in calls for part in trials.parts.of(call)}):
        alone = [call for call in calls if trials.parts.of(call) <= {part}]
        if trials.impossible(alone):
            return alone
    return None


def _without_ends(trials: Trials, calls: list[Call]) -> list[Call]:
    """Leaves out the calls that all come behind those that stay, in any order."""
    for cuts in (_ends_by_stamp, _ends_by_mark):
        calls = _first(cuts(calls), trials.impossible)
    return calls


def _first(cuts: Sequence[list[Call]], holds: Callable[[list[Call]], bool]) -> list[Call]:
    """The first of growing lists of calls for which it holds; it holds for the last, and for all behind the first."""
    low, high = 0, len(cuts) - 1
    while low < high:
        middle = (low + high) // 2
        if holds(cuts[middle]):
            high = middle
        else:
            low = middle + 1
    return cuts[high]


def _ends_by_stamp(calls: list[Call]) -> list[list[Call]]:
    """The calls up to each Time Stamp. An open call is among them where it began before all of them had ended."""
    cuts = [up_to(calls, stamp) for stamp in sorted({call.stamp for call in calls if call.stamp is not None})]
    return [cut for cut in cuts if len(cut) < len(calls)] + [calls]


def up_to(calls: list[Call], stamp: int) -> list[Call]:
    """The calls up to a Time Stamp that one of them has."""
    ends = [call.end for call in calls if call.end is not None and _is_up_to(call, stamp)]
    return [call for call in calls if (call.begin < max(ends) if call.end is None else _is_up_to(call, stamp))]


def _is_up_to(call: Call, stamp: int) -> bool:
    return call.stamp is not None and call.stamp <= stamp


def _ends_by_mark(calls: list[Call]) -> list[list[Call]]:
    """The calls up to each moment at which all that began had ended."""
    cuts: list[list[Call]] = []
    last = 0
    for place, call in enumerate(calls):
        if call.end is None:
            break
        if place and last < call.begin:
            cuts.append(calls[:place])
        last = max(last, call.end)
    return cuts + [calls]


def _without_parts(trials: Trials, calls: list[Call]) -> list[Call]:
    """Leaves out all calls of objects together."""
    parts = sorted({part for call in calls for part in trials.parts.of(call)})

    def of(kept: list[str]) -> list[Call]:
        staying = set(kept)
        return [call for call in calls if trials.parts.of(call) <= staying]

    return of(smallest(parts, lambda kept: trials.impossible(of(kept))))


def _without_calls(trials: Trials, calls: list[Call]) -> list[Call]:
    """Leaves out calls without an effect."""
    def of(kept: list[int]) -> list[Call]:
        staying = set(kept)
        return [call for call in calls if has_effect(call) or call.number in staying]

    free = [call.number for call in calls if not has_effect(call)]
    return of(smallest(free, lambda kept: trials.impossible(of(kept))))
