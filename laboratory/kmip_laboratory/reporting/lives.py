"""What the calls do to each object, one after the other, by the profile's rules (docs/PROFILE.md#operations): a reading
for people, which tells how an object stood as an item was about it. Whether an answer is possible, the auditor says.
"""

from __future__ import annotations

from collections import Counter
from typing import Counter as Counts, Iterable, Iterator, NamedTuple, Optional

from ..calls import Name, Status, names
from ..driving.store import Thing
from ..operations import JUDGED, READ_OVER, Operation
from ..tags import Tag
from ..ttlv import Kind
from .states import Standing, row_of
from .steps import BIRTHS, Step, Taken
from .things import born, left, named

class Seen(NamedTuple):
    """An item with the object that it is about, how that stood just before, and whether a name that it asks for was
    taken. Where no object is named or known, there is no identifier; of what stands unknown there is no thing."""

    step: Step
    identifier: Optional[str]
    standing: Standing
    thing: Optional[Thing]
    is_name_taken: bool

    @property
    def takes_identifier(self) -> bool:
        """Whether its operation is about an object that is there."""
        return row_of(self.step.operation, self.step.asked) is not None


class Lives:
    """The objects that are there. One whose dates nobody can know is None."""

    def __init__(self, declared: Iterable[Thing], unknown: Iterable[str] = ()) -> None:
        """`unknown` are objects of which it is not known what calls without an answer did to them."""
        self._things: dict[str, Optional[Thing]] = {thing.identifier: thing for thing in declared}
        self._names: Counts[Name] = Counter(name for thing in declared for name in named(thing))
        self._things.update(dict.fromkeys(unknown))
        # What stood there before this call: an object, none that is known, or nothing.
        self._before: dict[str, tuple[Optional[Thing], ...]] = {}
        # The ID Placeholder: some identifiers are none, one, or more than are known.
        self._placeholder: Optional[str] = None
        self._is_placeholder_known = True

    def take(self, call: Taken) -> Iterator[Seen]:
        """Each item of a call, and behind that what it did."""
        self._before = {}
        self._placeholder, self._is_placeholder_known = None, True
        for step in call.steps:
            seen = self._seen(step, call.now)
            yield seen
            if step.has_succeeded:
                self._do(seen, call.now)
        if any(step.status == Status.UNDONE for step in call.steps):
            self._undo()

    def holds(self, identifier: str) -> bool:
        """Whether there is an object with this identifier, live or destroyed."""
        return identifier in self._things

    def _seen(self, step: Step, now: Optional[int]) -> Seen:
        meant = step.identifier
        if step.operation in BIRTHS:
            return Seen(step, None, Standing.ABSENT, None, any(self._names[name] > 0 for name in names(step.asked)))
        if meant is None and not self._is_placeholder_known:
            return Seen(step, None, Standing.UNKNOWN, None, False)
        meant = self._placeholder if meant is None else meant
        if meant is None or meant not in self._things:
            return Seen(step, meant, Standing.ABSENT, None, False)
        thing = self._things[meant]
        standing = Standing.UNKNOWN if thing is None or now is None else Standing(thing.state(now))
        return Seen(step, meant, standing, thing, False)

    def _do(self, seen: Seen, now: Optional[int]) -> None:
        """What a success leaves."""
        step, operation = seen.step, seen.step.operation
        if operation in BIRTHS:
            self._bear(step, now)
        elif operation == Operation.LOCATE:
            self._find(step)
        elif operation in JUDGED:
            if seen.identifier is not None:
                self._put(seen.identifier, left(seen.thing, step, seen.standing, now))
        elif operation not in READ_OVER:
            for name in {seen.identifier, step.made} - {None}:
                self._put(str(name), None)
            self._is_placeholder_known = False

    def _bear(self, step: Step, now: Optional[int]) -> None:
        made = step.made
        self._placeholder, self._is_placeholder_known = made, made is not None
        if made is not None:
            self._put(made, None if made in self._things or now is None else born(step, made, now))

    def _find(self, step: Step) -> None:
        listed = step.told.every(Tag.UNIQUE_IDENTIFIER, Kind.TEXT) if step.told else []
        self._is_placeholder_known = step.told is not None or step.status == Status.SUCCESS
        self._placeholder = listed[0].value if len(listed) == 1 else None

    def _put(self, identifier: str, thing: Optional[Thing]) -> None:
        if identifier not in self._before:
            there = identifier in self._things
            self._before[identifier] = (self._things[identifier],) if there else ()
        self._name(self._things.get(identifier), -1)
        self._name(thing, 1)
        self._things[identifier] = thing

    def _name(self, thing: Optional[Thing], by: int) -> None:
        for name in named(thing):
            self._names[name] += by

    def _undo(self) -> None:
        for identifier, before in self._before.items():
            self._name(self._things.pop(identifier), -1)
            if before:
                self._things[identifier] = before[0]
                self._name(before[0], 1)
