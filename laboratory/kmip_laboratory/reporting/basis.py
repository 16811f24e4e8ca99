"""What a verdict rests on: what was judged, and what of the profile the recording exercised. It is the report's reading
of the recording, and not the auditor's word."""

from __future__ import annotations

import os
from typing import Collection, NamedTuple, Protocol

from ..calls import Call
from ..verdicts import Outcome, Verdict
from .batches import OfBatches, OfKinds
from .conformance import Section
from .coverage import BY_JUDGING, Coverage, Covering, judged_calls
from .declared import NOTHING, Declared, read_declared
from .exercised import OfAttributes, OfFilters, OfReasons, OfStates
from .lives import Lives, Seen
from .steps import taken
from .turns import Turn, by_time_stamp, read_turns
from .whys import OfWhys

READING = "This is the report's reading of the recording, and not the auditor's word."
BY_TURNS = "States are those that the calls leave in the order of the turns."
BY_STAMPS = ("No order was judged: states are those that the calls leave by their Time Stamps, and calls of the same "
             "second by their end marks, which may be another order than the server's.")


class OfItems(Protocol):
    """What counts items, one after the other."""

    def take(self, seen: Seen) -> None:
        """Counts an item."""

    def section(self) -> Section:
        """What was counted."""


class Basis(NamedTuple):
    """In which order the calls were taken, what was judged, and the conformance table."""

    order: str
    coverage: Coverage
    sections: list[Section]


def read_basis(verdict: Verdict, calls: list[Call], declaration: str, witness: str,
               aside: Collection[int] = frozenset()) -> Basis:
    """What a verdict on these calls rests on, by the files of its declaration and of its witness; a witness that does
    not fit them gives no order. Nothing of the calls in `aside` was judged."""
    has_order = os.path.exists(witness) and verdict.outcome in (Outcome.YES, Outcome.NO, *BY_JUDGING)
    turns = read_turns(witness) if has_order else by_time_stamp(calls)
    of_call = {turn.call: number for number, turn in enumerate(turns, 1)}
    covering = Covering(judged_calls(verdict, calls, of_call).difference(aside))
    for call in calls:
        covering.call(call)
    unknown = frozenset().union(*(piece.identifiers for call in calls if call.end is None and not has_order
                                  for piece in call.pieces))
    start = read_declared(declaration) if os.path.exists(declaration) else NOTHING
    return _told(BY_TURNS if has_order else BY_STAMPS, calls, turns, covering, (start, unknown))


def _told(order: str, calls: list[Call], turns: list[Turn], covering: Covering,
          start: tuple[Declared, frozenset[str]]) -> Basis:
    declared, unknown = start
    lives = Lives(declared.things, unknown)
    batches, kinds, whys = OfBatches(), OfKinds(), OfWhys(declared)
    of_items: list[OfItems] = [OfStates(), whys, OfReasons(declared.rows), OfAttributes(), OfFilters(), kinds]
    for call in calls:
        kinds.begin(call)
        whys.begin(call)
    by_number = {call.number: call for call in calls}
    for done in (taken(by_number[turn.call], turn) for turn in turns if turn.call in by_number):
        if done.is_recorded:
            batches.call(done)
            whys.call(done)
        for seen in lives.take(done):
            covering.take(done.call, seen, lives)
            for counting in of_items if done.is_recorded else ():
                counting.take(seen)
    sections = [counting.section() for counting in of_items]
    return Basis(order, covering.coverage(), [*sections[:-1], batches.section(), sections[-1]])
