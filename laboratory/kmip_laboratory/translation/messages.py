"""Whole messages of an older version as messages of 2.1, or told and left as they are."""

from __future__ import annotations

from collections import Counter
from functools import lru_cache
from typing import Callable, Optional

from .. import ttlv
from ..glimpse import MAJOR, MINOR, Glimpse, Part, glimpse
from ..message import Side
from ..operations import Operation, operation_name
from ..slices import Change, changed
from ..tags import Tag
from ..trouble import say
from ..versions import JUDGED, OF_OLD, TRANSLATED, Version
from .attributes import Guess, Lost
from .payloads import REQUESTS, RESPONSES, Payload, names_object, without_placeholder

# Up to this version a batch that does not say whether its order counts was one whose order does not.
LAST_WITHOUT_ORDER = Version(1, 2)
# Operations on one object, which they name or have from the placeholder: the judged ones, and all up to this version.
JUDGED_ON_OBJECTS = frozenset({Operation.GET, Operation.GET_ATTRIBUTES, Operation.ACTIVATE, Operation.REVOKE,
                               Operation.DESTROY})
ON_OBJECTS = JUDGED_ON_OBJECTS | {
    Operation.GET_ATTRIBUTE_LIST, Operation.ADD_ATTRIBUTE, Operation.MODIFY_ATTRIBUTE, Operation.DELETE_ATTRIBUTE,
    Operation.ARCHIVE, Operation.RECOVER, Operation.CHECK, Operation.OBTAIN_LEASE, Operation.GET_USAGE_ALLOCATION,
    Operation.RE_KEY, Operation.RE_KEY_KEY_PAIR, Operation.RE_CERTIFY, Operation.ENCRYPT, Operation.DECRYPT,
    Operation.SIGN, Operation.SIGNATURE_VERIFY, Operation.MAC, Operation.MAC_VERIFY}


class Translator:
    """Translates the messages of calls, requests ahead of their answers. `count` has how many of each version were
    translated, `left` how many were not, and `lost` which fields have no place in 2.1. `ordered` takes a batch that
    does not say whether its order counts as ordered where it uses the placeholder, as servers of these versions do."""

    def __init__(self, tell: Callable[[str], None] = say, ordered: bool = True) -> None:
        self._tell = tell
        self._ordered = ordered
        self._asked: dict[int, list[int]] = {}
        self._unasked: set[int] = set()
        self.count: Counter[str] = Counter()
        self.lost: Lost = Counter()
        self.left = 0

    def message(self, call: int, side: Side, message: bytes) -> bytes:
        """The message in version 2.1; as it is where it is of no older version, or can't be translated. The answer to a
        request that could not be stays with it."""
        seen = glimpse(message, side)
        if side is Side.CLIENT:
            self._asked[call] = operations = [part.operation or 0 for part in seen.parts] if seen else []
        else:
            operations = self._operations_of(call, seen)
        if seen is None or seen.version not in (*TRANSLATED, JUDGED):
            return message
        if side is Side.SERVER and call in self._unasked:
            self._unasked.remove(call)
            self.left += seen.version != JUDGED
            return message
        try:
            made = self._translated(message, side, seen, operations)
        except (Guess, ttlv.NotTtlv) as fault:
            self._leave(call, side, fault)
            return message
        if made != message:
            self.count[str(seen.version)] += 1
        return made

    def _leave(self, call: int, side: Side, fault: Exception) -> None:
        """Counts and tells a message that is left as it is."""
        self.left += 1
        if side is Side.CLIENT:
            self._unasked.add(call)
            self._tell(f"call {call}, request, {fault}; the message is left as it is, and its answer with it")
        else:
            self._tell(f"call {call}, response, {fault}; the message is left as it is")

    def _translated(self, message: bytes, side: Side, seen: Glimpse, operations: list[int]) -> bytes:
        found: Lost = Counter()
        changes = [] if seen.version == JUDGED else [_version_change(message, seen)]
        if side is Side.CLIENT and self._is_unordered(message, seen, operations):
            changes += _without_order(message, seen)
        for place, (part, operation) in enumerate(zip(seen.parts, operations), 1):
            where = f"item {place}, {operation_name(operation)}"
            changes += _of_payload(message, part, _steps(side, seen.version, operation), where, found)
        self.lost.update(found)
        return changed(message, changes) if changes else message

    def _is_unordered(self, message: bytes, seen: Glimpse, operations: list[int]) -> bool:
        """Whether a batch that does not say so is one whose order does not count."""
        if len(operations) < 2 or seen.version is None or seen.version > LAST_WITHOUT_ORDER:
            return False
        return not (self._ordered and _uses_placeholder(message, seen, operations))

    def _operations_of(self, call: int, seen: Optional[Glimpse]) -> list[int]:
        """The operations of the items of an answer; where one names none, it is that of its request's item."""
        asked = self._asked.pop(call, [])
        parts = seen.parts if seen else []
        return [part.operation or (asked[place] if place < len(asked) else 0) for place, part in enumerate(parts)]


def _steps(side: Side, version: Optional[Version], operation: int) -> list[Payload]:
    """What is done to a payload, one step after the other. From 2.0 on the placeholder alone has a form that is not
    judged."""
    steps = [without_placeholder] if side is Side.CLIENT and operation in JUDGED_ON_OBJECTS else []
    older = (REQUESTS if side is Side.CLIENT else RESPONSES).get(operation) if version in OF_OLD else None
    return steps + ([older] if older else [])


def _of_payload(message: bytes, part: Part, steps: list[Payload], where: str, lost: Lost) -> list[Change]:
    """What becomes of the payload of an item."""
    if not part.payload or not steps:
        return []
    start, stop = part.payload
    payload = made = message[start:stop]
    try:
        for step in steps:
            made = step(made, "", lost)
    except Guess as fault:
        raise Guess(f"{where}{fault}") from None
    return [] if made == payload else [Change((ttlv.HEADER_LENGTH, part.place, start), start, stop, made)]


def _uses_placeholder(message: bytes, seen: Glimpse, operations: list[int]) -> bool:
    """Whether an item is about the object in the placeholder."""
    return any(operation in ON_OBJECTS and not (part.payload and names_object(message[slice(*part.payload)]))
               for operation, part in zip(operations, seen.parts))


def _version_change(message: bytes, seen: Glimpse) -> Change:
    start, stop = seen.version_place
    return Change((), start, stop, _judged_version(message[start:stop]))


@lru_cache(maxsize=64)
def _judged_version(spelled: bytes) -> bytes:
    """The value of a Protocol Version that was seen to have both of its numbers, with those of 2.1."""
    made = bytearray(spelled)
    places = ttlv.places_in(spelled, 0, len(spelled))
    for wanted, number in ((MAJOR, JUDGED.major), (MINOR, JUDGED.minor)):
        place = next(place for each, place, _ in places if each == wanted)
        made[place:place + 4] = number.to_bytes(4, "big")
    return bytes(made)


def _without_order(message: bytes, seen: Glimpse) -> list[Change]:
    """What the header of a batch has to say where it says nothing of its order, in a version in which that meant that
    there is none. It stands ahead of the Batch Count."""
    start, stop = seen.header
    places = {front >> 8: place - ttlv.HEADER_LENGTH for front, place, _ in ttlv.places_in(message, start, stop)}
    if Tag.BATCH_ORDER_OPTION in places:
        return []
    place = places.get(Tag.BATCH_COUNT, stop)
    return [Change((ttlv.HEADER_LENGTH, start), place, place, ttlv.boolean(Tag.BATCH_ORDER_OPTION, False))]
