"""The numbered reasons why an answer is impossible (docs/PROFILE.md#why-an-answer-is-impossible): how many answers, or
calls, of a recording each of them could have refused."""

from __future__ import annotations

from collections import Counter
from typing import Counter as Counts, Iterator, Optional

from ..calls import Call, Status, names
from ..driving.numbers import AES
from ..operations import Operation
from ..recording.rules import Visibility
from ..tags import JUDGED_ATTRIBUTES, Tag
from ..ttlv import Kind
from .conformance import Line, Section
from .declared import Declared
from .exercised import asked_for
from .lives import Seen
from .states import GONE, STATES, Standing
from .steps import BIRTHS, Step, Taken
from .things import has, read_thing

NAMES = ("EarlierCallLate", "StampRunsBack", "BatchShape", "OperationDiffers", "NoSuchObject", "WrongState",
         "IdentifierTaken", "NameTaken", "BytesDiffer", "LengthImpossible", "AttributeDiffers", "AttributeMissing",
         "ListedWrongly", "ListedTooFew", "ReasonUnfounded", "EchoDiffers", "NotVisible")
(EARLIER_CALL_LATE, STAMP_RUNS_BACK, BATCH_SHAPE, OPERATION_DIFFERS, NO_SUCH_OBJECT, WRONG_STATE, IDENTIFIER_TAKEN,
 NAME_TAKEN, BYTES_DIFFER, LENGTH_IMPOSSIBLE, ATTRIBUTE_DIFFERS, ATTRIBUTE_MISSING, LISTED_WRONGLY, LISTED_TOO_FEW,
 REASON_UNFOUNDED, ECHO_DIFFERS, NOT_VISIBLE) = range(1, len(NAMES) + 1)
# Up to the first of these a client's text says who it is.
BEHIND_IDENTITY = " /"


class OfWhys:
    """What could have been refused, by the reason."""

    def __init__(self, declared: Declared) -> None:
        self._declared = declared
        self._reasons = {row.reason for row in declared.rows}
        self._known = set(declared.with_bytes)
        self._owners = dict(declared.owners)
        self._counts: Counts[int] = Counter()
        self._client = ""
        self._has_turn = False
        self._first_end: Optional[int] = None

    def begin(self, call: Call) -> None:
        """Notes which call ended first."""
        if call.end is not None and (self._first_end is None or call.end < self._first_end):
            self._first_end = call.end

    def call(self, taken: Taken) -> None:
        """Counts a call at its turn."""
        self._client = identity(taken.call.client)
        if self._first_end is not None and self._first_end < taken.call.begin:
            self._counts[EARLIER_CALL_LATE] += 1
        if taken.now is not None:
            self._counts[STAMP_RUNS_BACK] += self._has_turn
            self._has_turn = True
        self._counts[BATCH_SHAPE] += bool(taken.steps)

    def take(self, seen: Seen) -> None:
        """Counts an item."""
        self._counts.update(set(self._of(seen)))
        made, meant = seen.step.made, seen.identifier or seen.step.made
        if not seen.step.has_succeeded:
            return
        if seen.step.operation in BIRTHS and made is not None:
            self._owners[made] = self._client
        if meant is not None and seen.step.operation in (Operation.REGISTER, Operation.GET):
            self._known.add(meant)

    def section(self) -> Section:
        """What was counted. Two reasons hold only where the declaration says so."""
        aside = set() if self._declared.unique_names else {NAME_TAKEN}
        aside |= set() if self._declared.visibility == Visibility.must_hide else {NOT_VISIBLE}
        lines = [Line(f"{number} {name}", [(self._counts[number],)], number in aside)
                 for number, name in enumerate(NAMES, 1)]
        return Section("Reasons", "answers that the reason could have refused; of the first three, calls",
                       ["held against it"], lines)

    def _of(self, seen: Seen) -> Iterator[int]:
        step = seen.step
        yield OPERATION_DIFFERS
        if step.status == Status.FAILED and step.reason in self._reasons:
            yield REASON_UNFOUNDED
        if not step.has_succeeded:
            return
        if step.operation in BIRTHS:
            yield from self._of_birth(step)
        elif step.operation == Operation.LOCATE:
            yield from self._of_locate(step)
        elif seen.takes_identifier:
            yield from self._of_object(seen)

    def _of_birth(self, step: Step) -> Iterator[int]:
        yield IDENTIFIER_TAKEN
        if self._declared.unique_names and names(step.asked):
            yield NAME_TAKEN
        if step.asked and read_thing("", step.asked).algorithm == AES:
            yield LENGTH_IMPOSSIBLE
        if step.told and step.told.first(Tag.OBJECT_TYPE, Kind.ENUMERATION):
            yield ECHO_DIFFERS

    def _of_locate(self, step: Step) -> Iterator[int]:
        listed = step.told.every(Tag.UNIQUE_IDENTIFIER, Kind.TEXT) if step.told else []
        most = step.asked.first(Tag.MAXIMUM_ITEMS, Kind.INTEGER) if step.asked else None
        if listed:
            yield LISTED_WRONGLY
        if most is None or len(listed) < most.value:
            yield LISTED_TOO_FEW
        if any(self._is_anothers(item.value) for item in listed):
            yield NOT_VISIBLE

    def _of_object(self, seen: Seen) -> Iterator[int]:
        yield NO_SUCH_OBJECT
        if seen.standing in STATES:
            yield WRONG_STATE
        meant = seen.identifier or seen.step.made
        if seen.step.made is not None:
            yield ECHO_DIFFERS
        if meant is not None and self._is_anothers(meant):
            yield NOT_VISIBLE
        if seen.step.operation == Operation.GET:
            yield BYTES_DIFFER if meant in self._known else LENGTH_IMPOSSIBLE
            yield ATTRIBUTE_DIFFERS
        if seen.step.operation == Operation.GET_ATTRIBUTES:
            yield from _of_attributes(seen)

    def _is_anothers(self, identifier: str) -> bool:
        """Whether an object is another client's, and has to be hidden from this one."""
        return self._declared.visibility == Visibility.must_hide and (
            self._owners.get(identifier, self._client) != self._client)


def identity(client: str) -> str:
    """Who a client is, by its text."""
    ends = [place for place in map(client.find, BEHIND_IDENTITY) if place >= 0]
    return client[:min(ends, default=len(client))]


def _of_attributes(seen: Seen) -> Iterator[int]:
    told = seen.step.told.first(Tag.ATTRIBUTES, Kind.STRUCTURE) if seen.step.told else None
    if told and any(child.tag in JUDGED_ATTRIBUTES for child in told.children()):
        yield ATTRIBUTE_DIFFERS
    thing = seen.thing
    if thing and seen.standing not in (*GONE, Standing.UNKNOWN) and any(
            has(thing, tag) for tag in asked_for(seen.step.asked)):
        yield ATTRIBUTE_MISSING
