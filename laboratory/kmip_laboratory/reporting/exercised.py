"""What items exercise of the tables of docs/PROFILE.md: states, reasons, attributes and filters."""

from __future__ import annotations

from collections import Counter
from typing import Counter as Counts, Iterable, Optional

from ..calls import Status
from ..enumerations import number_name
from ..operations import Operation
from ..recording.rules import Cause, Row
from ..tag_names import TAG_NAMES
from ..tags import JUDGED_ATTRIBUTES, Tag
from ..ttlv import Item, Kind
from .conformance import NO_CELL, Line, Section
from .lives import Seen
from .states import GONE, STATES, TABLE, Possible, Standing, possible, row_of
from .steps import BIRTHS
from .things import has

HEADS = {Standing.ABSENT: "no such object", Standing.UNKNOWN: "unknown",
         **{state: number_name(Tag.STATE, state) for state in STATES}}
FILTERS = (Tag.NAME, Tag.OBJECT_TYPE, Tag.STATE, Tag.CRYPTOGRAPHIC_ALGORITHM, Tag.CRYPTOGRAPHIC_LENGTH)
NO_FILTER, OTHER_FILTER = "no filter", "a filter that is not judged"
# Of Result Reasons that no cause is asked for.
NO_REASON, NO_ROW = "no reason", "a reason without a row"
# Why a refusal is founded: by the row's cause, since no object is meant, or by nothing that is known here.
HELD, NO_OBJECT, ELSE = "its cause held", "no object was meant", "else"


class OfStates:
    """Rows and columns of the table of states."""

    def __init__(self) -> None:
        self._counts: Counts[tuple[str, Standing, bool]] = Counter()

    def take(self, seen: Seen) -> None:
        """Counts an item."""
        row = row_of(seen.step.operation, seen.step.asked)
        if row is not None:
            self._counts[row, seen.standing, seen.step.has_succeeded] += 1

    def section(self) -> Section:
        """What was counted."""
        columns = [*STATES, Standing.ABSENT, Standing.UNKNOWN]
        lines = [Line(row, [(self._counts[row, column, True], self._counts[row, column, False])
                            for column in columns]) for row in TABLE]
        return Section("States", "successes / refusals, by the object's state just before",
                       [HEADS[column] for column in columns], lines, 2)


class OfReasons:
    """Rows of the cause table."""

    def __init__(self, rows: Iterable[Row]) -> None:
        self._rows = list(dict.fromkeys(rows))
        self._counts: Counts[tuple[Row, str]] = Counter()
        self._others: Counts[str] = Counter()

    def take(self, seen: Seen) -> None:
        """Counts an item."""
        if seen.step.status != Status.FAILED:
            return
        rows = [row for row in self._rows if row.reason == seen.step.reason]
        for row in rows:
            self._counts[row, founded(row.cause, seen)] += 1
        if not rows:
            self._others[NO_REASON if seen.step.reason is None else NO_ROW] += 1

    def section(self) -> Section:
        """What was counted."""
        heads = [HELD, NO_OBJECT, ELSE]
        lines = [Line(f"{reason_name(row.reason)}, {row.cause.name}", [(self._counts[row, head],) for head in heads])
                 for row in self._rows]
        lines += [Line(name, [NO_CELL, NO_CELL, (self._others[name],)], True) for name in (NO_REASON, NO_ROW)]
        return Section("Result Reasons", "refusals with this reason, by whether the row's cause is known to hold, or "
                       "the placeholder was empty", heads, lines, 2)


class OfAttributes:
    """Judged attributes, in the answers to Get Attributes."""

    def __init__(self) -> None:
        self._counts: Counts[tuple[int, str]] = Counter()

    def take(self, seen: Seen) -> None:
        """Counts an item."""
        if seen.step.operation != Operation.GET_ATTRIBUTES or not seen.step.has_succeeded:
            return
        attributes = seen.step.told.first(Tag.ATTRIBUTES, Kind.STRUCTURE) if seen.step.told else None
        for tag in {child.tag for child in attributes.children()} if attributes else ():
            self._counts[tag, "shown"] += 1
        for tag in asked_for(seen.step.asked):
            if seen.standing not in GONE:
                told = "unknown" if seen.thing is None or seen.standing is Standing.UNKNOWN else "required"
                if seen.thing is None or has(seen.thing, tag):
                    self._counts[tag, told] += 1

    def section(self) -> Section:
        """What was counted. No live object has a Destroy Date."""
        heads = ["shown", "required", "unknown"]
        lines = [Line(TAG_NAMES[tag], [NO_CELL if (tag, head) == (Tag.DESTROY_DATE, "required")
                                       else (self._counts[tag, head],) for head in heads])
                 for tag in JUDGED_ATTRIBUTES]
        return Section("Attributes", "answers to Get Attributes that showed it; such that had to; and such of which it "
                       "is not known whether they had to", heads, lines, 1)


class OfFilters:
    """What a Locate may ask for."""

    def __init__(self) -> None:
        self._counts: Counts[str] = Counter()

    def take(self, seen: Seen) -> None:
        """Counts an item."""
        if seen.step.operation != Operation.LOCATE or not seen.step.has_succeeded:
            return
        asked = seen.step.asked
        attributes = asked.first(Tag.ATTRIBUTES, Kind.STRUCTURE) if asked else None
        filters = {child.tag for child in attributes.children()} if attributes else set()
        names = {TAG_NAMES[tag] if tag in FILTERS else OTHER_FILTER for tag in filters} or {NO_FILTER}
        if asked and asked.first(Tag.MAXIMUM_ITEMS, Kind.INTEGER):
            names.add(TAG_NAMES[Tag.MAXIMUM_ITEMS])
        self._counts.update(names)

    def section(self) -> Section:
        """What was counted."""
        names = [*(TAG_NAMES[tag] for tag in FILTERS), TAG_NAMES[Tag.MAXIMUM_ITEMS], NO_FILTER]
        lines = [Line(name, [(self._counts[name],)]) for name in names]
        lines.append(Line(OTHER_FILTER, [(self._counts[OTHER_FILTER],)], True))
        return Section("Locate", "answers to a Locate that asked so", ["answered"], lines)


def asked_for(asked: Optional[Item]) -> tuple[Tag, ...]:
    """The judged attributes that a Get Attributes wants where the object has them: all where the request has nothing
    but the identifier; those that Enumerations name where it has nothing else."""
    rest = [child for child in (asked.children() if asked else []) if child.tag != Tag.UNIQUE_IDENTIFIER]
    if not rest:
        return JUDGED_ATTRIBUTES
    if any(child.tag != Tag.ATTRIBUTE_REFERENCE or child.kind != Kind.ENUMERATION for child in rest):
        return ()
    return tuple(tag for tag in JUDGED_ATTRIBUTES if tag in {child.value for child in rest})


def founded(cause: Cause, seen: Seen) -> str:
    """Whether a refusal is known to be founded by this cause, or since no object is meant."""
    if seen.takes_identifier and seen.standing is Standing.ABSENT and seen.identifier is None:
        return NO_OBJECT
    return HELD if holds(cause, seen) else ELSE


def holds(cause: Cause, seen: Seen) -> bool:
    """Whether the cause of a refusal is known to hold."""
    operation, asked = seen.step.operation, seen.step.asked
    if operation in BIRTHS:
        return cause is Cause.TakenName and seen.is_name_taken
    row = row_of(operation, asked)
    has_references = bool(asked and any(child.tag == Tag.ATTRIBUTE_REFERENCE for child in asked.children()))
    if row is None or (operation == Operation.GET_ATTRIBUTES and has_references):
        return False
    if cause is Cause.NotFound:
        return seen.standing in (Standing.ABSENT, *GONE)
    return cause is Cause.WrongState and possible(row, seen.standing) in (Possible.MAY, Possible.NOT)


def reason_name(number: Optional[int]) -> str:
    """A Result Reason by its number, with its name where it has one here."""
    if number is None:
        return NO_REASON
    name = number_name(Tag.RESULT_REASON, number)
    return f"{number:X} {name}" if name else f"{number:X}"
