"""What calls exercise of the shapes of batches (docs/PROFILE.md#batches)."""

from __future__ import annotations

from collections import Counter
from typing import Counter as Counts

from ..calls import Call, Status
from ..driving.numbers import Option
from .conformance import Line, Section
from .lives import Seen
from .steps import Taken

OPTIONS = {None: "no option, which is Stop", Option.STOP: "Stop", Option.CONTINUE: "Continue", Option.UNDO: "Undo"}
FAILED, ALL_WELL = "with a first failed answer", "without one"
UNORDERED = "Batch Order Option False, more than one item"
PLACEHOLDER = "an item that means the placeholder"
REFUSED, OPEN, UNDONE = "a refused message", "a call without an end mark", "an undone answer"


class OfBatches:
    """Options and shapes of calls with more than one item."""

    def __init__(self) -> None:
        self._counts: Counts[tuple[str, str]] = Counter()

    def call(self, taken: Taken) -> None:
        """Counts the shape of a call that was answered."""
        if taken.asks > 1 and taken.steps and taken.option in OPTIONS:
            has_failed = any(step.status == Status.FAILED for step in taken.steps)
            option = OPTIONS[None if taken.option is None else Option(taken.option)]
            self._counts[option, FAILED if has_failed else ALL_WELL] += 1

    def section(self) -> Section:
        """What was counted."""
        lines = [Line(name, [(self._counts[name, FAILED],), (self._counts[name, ALL_WELL],)])
                 for name in OPTIONS.values()]
        return Section("Batches", "calls of more than one item, by Batch Error Continuation Option", [FAILED, ALL_WELL],
                       lines)


class OfKinds:
    """What else goes with batches: calls and items of some kinds."""

    def __init__(self) -> None:
        self._counts: Counts[str] = Counter()

    def begin(self, call: Call) -> None:
        """Counts what a call is by itself."""
        told = {REFUSED: call.refused, OPEN: call.end is None, UNORDERED: not call.ordered}
        self._counts.update(name for name, holds in told.items() if holds)

    def take(self, seen: Seen) -> None:
        """Counts an item."""
        if seen.step.status == Status.UNDONE:
            self._counts[UNDONE] += 1
        if seen.takes_identifier and seen.step.identifier is None:
            self._counts[PLACEHOLDER] += 1

    def section(self) -> Section:
        """What was counted. That a call has no answer is nothing of the server's."""
        lines = [Line(name, [(self._counts[name],)], name == OPEN)
                 for name in (UNORDERED, PLACEHOLDER, UNDONE, REFUSED, OPEN)]
        return Section("Calls and items", "of this kind", ["recorded"], lines)
