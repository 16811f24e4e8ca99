"""What a message says at first sight: its version, its moment, and of each Batch Item what it asks or how it ended.

A glimpse reads no more than it tells, so that passes over long transcripts take seconds. It judges nothing.
"""

from __future__ import annotations

from functools import lru_cache
from typing import NamedTuple, Optional

from .message import Side
from .tag_names import TAGS_BY_NAME
from .tags import Tag
from .ttlv import HEADER_LENGTH, Kind, NotTtlv, front, places_in
from .versions import Version

SUCCESS, FAILED, PENDING, UNDONE = range(4)

BATCH_ITEM = front(Tag.BATCH_ITEM, Kind.STRUCTURE)
HEADERS = {side: front(side.header_tag, Kind.STRUCTURE) for side in Side}
MAJOR = front(Tag.PROTOCOL_VERSION_MAJOR, Kind.INTEGER)
MESSAGES = {side: front(side.message_tag, Kind.STRUCTURE) for side in Side}
MINOR = front(Tag.PROTOCOL_VERSION_MINOR, Kind.INTEGER)
OPERATION = front(Tag.OPERATION, Kind.ENUMERATION)
PAYLOADS = {Side.CLIENT: front(Tag.REQUEST_PAYLOAD, Kind.STRUCTURE),
            Side.SERVER: front(Tag.RESPONSE_PAYLOAD, Kind.STRUCTURE)}
REASON = front(Tag.RESULT_REASON, Kind.ENUMERATION)
STATUS = front(Tag.RESULT_STATUS, Kind.ENUMERATION)
TIME_STAMP = front(Tag.TIME_STAMP, Kind.DATE_TIME)
IDENTIFIERS = frozenset(front(TAGS_BY_NAME[name], Kind.TEXT) for name in (
    "Unique Identifier", "Private Key Unique Identifier", "Public Key Unique Identifier"))
VERSION = front(Tag.PROTOCOL_VERSION, Kind.STRUCTURE)
# Nearly all messages begin so: with a header, and in it the version.
VERSION_LENGTH = 32
VERSION_FIRST = VERSION.to_bytes(4, "big") + VERSION_LENGTH.to_bytes(4, "big")


class Part(NamedTuple):
    """A Batch Item. `place` is the offset of its value, and `payload` where that of its payload stands, from and up
    to."""

    operation: Optional[int]
    status: Optional[int]
    reason: Optional[int]
    payload: Optional[tuple[int, int]]
    place: int


class Glimpse(NamedTuple):
    """A message; of a request there is neither status nor reason, and mostly no moment. `header` and `version_place`
    are where the values of its header and of its Protocol Version stand, from and up to."""

    version: Optional[Version]
    stamp: Optional[int]
    parts: list[Part]
    header: tuple[int, int]
    version_place: tuple[int, int]

    @property
    def is_refusal(self) -> bool:
        """Whether it refuses a whole message: one item, which failed and names no operation."""
        return len(self.parts) == 1 and self.parts[0].operation is None and self.parts[0].status == FAILED


def glimpse(message: bytes, side: Side) -> Optional[Glimpse]:
    """What the message says at first sight; None where it is no message of this side."""
    try:
        (number, start, length), = places_in(message, 0, len(message))
        return _glimpse(message, side, start, start + length) if number == MESSAGES[side] else None
    except ValueError:
        return None


def _glimpse(message: bytes, side: Side, start: int, stop: int) -> Glimpse:
    header, found, payload, parts = HEADERS[side], None, PAYLOADS[side], []
    for number, place, length in places_in(message, start, stop):
        if number == BATCH_ITEM:
            parts.append(_part(message, payload, place, place + length))
        elif number == header and found is None:
            found = (place, place + length)
    version, stamp, where = None, None, None
    for number, place, length in places_in(message, *found) if found else ():
        if number == VERSION and where is None:
            where = (place, place + length)
            version = _version(message[place:place + length])
        elif number == TIME_STAMP and stamp is None:
            stamp = int.from_bytes(message[place:place + 8], "big", signed=True)
    return Glimpse(version, stamp, parts, found or (0, 0), where or (0, 0))


def version_of(message: bytes) -> Optional[Version]:
    """The version of a message of either side; None where it is none, or names none."""
    start = 3 * HEADER_LENGTH
    if message.startswith(VERSION_FIRST, start - HEADER_LENGTH):
        try:
            return _version(message[start:start + VERSION_LENGTH])
        except NotTtlv:
            return None
    for side in Side:
        seen = glimpse(message, side)
        if seen:
            return seen.version
    return None


@lru_cache(maxsize=64)
def _version(spelled: bytes) -> Optional[Version]:
    """The version that the value of a Protocol Version is. There are few, and they come again and again."""
    found: dict[int, int] = {}
    for number, place, _ in places_in(spelled, 0, len(spelled)):
        found.setdefault(number, int.from_bytes(spelled[place:place + 4], "big", signed=True))
    major, minor = found.get(MAJOR), found.get(MINOR)
    return None if major is None or minor is None else Version(major, minor)


def _part(message: bytes, payload_front: int, start: int, stop: int) -> Part:
    operation = status = reason = payload = None
    for number, place, length in places_in(message, start, stop):
        if number == payload_front:
            payload = payload or (place, place + length)
        elif number == OPERATION and operation is None:
            operation = int.from_bytes(message[place:place + 4], "big")
        elif number == STATUS and status is None:
            status = int.from_bytes(message[place:place + 4], "big")
        elif number == REASON and reason is None:
            reason = int.from_bytes(message[place:place + 4], "big")
    return Part(operation, status, reason, payload, start)


def identifiers(message: bytes, part: Part) -> list[str]:
    """The Unique Identifiers that are texts at the first level of the payload of an item, those of pairs of keys too;
    none of one that is broken within."""
    try:
        places = places_in(message, *part.payload) if part.payload else []
    except NotTtlv:
        return []
    return [message[place:place + length].decode("utf-8", "replace")
            for number, place, length in places if number in IDENTIFIERS]
