"""In which order calls were done: the turns of a witness, or where there is none the Time Stamps."""

from __future__ import annotations

from typing import NamedTuple, Optional

from ..calls import Call
from ..records import read_file, records
from ..tags import FileTag, Tag
from ..ttlv import Item, Kind


class Turn(NamedTuple):
    """A turn: its call, the response that the witness gives of one without an end mark, the places of a batch without
    order as they were done, and the Response Payloads that answers lack, by place."""

    call: int
    answer: Optional[bytes] = None
    places: tuple[int, ...] = ()
    fills: tuple[tuple[int, Item], ...] = ()


def read_turns(path: str) -> list[Turn]:
    """The turns of a witness."""
    told = (_turn(record.item) for record in records(path, read_file(path)) if record.item.tag == FileTag.TURN)
    return [turn for turn in told if turn is not None]


def by_time_stamp(calls: list[Call]) -> list[Turn]:
    """The calls that have ended by their Time Stamps, and those of the same second by their end marks."""
    ended = [call for call in calls if call.end is not None]
    ended.sort(key=lambda call: (call.stamp or 0, call.end))
    return [Turn(call.number) for call in ended]


def _turn(item: Item) -> Optional[Turn]:
    call, answer = item.first(FileTag.CALL, Kind.INTEGER), item.first(FileTag.ANSWER, Kind.BYTES)
    if call is None:
        return None
    places = tuple(place.value for place in item.every(FileTag.PLACE, Kind.INTEGER))
    fills = (_fill(fill) for fill in item.every(FileTag.FILL, Kind.STRUCTURE))
    return Turn(call.value, answer.value if answer else None, places, tuple(fill for fill in fills if fill))


def _fill(item: Item) -> Optional[tuple[int, Item]]:
    place, payload = item.first(FileTag.ITEM, Kind.INTEGER), item.first(Tag.RESPONSE_PAYLOAD, Kind.STRUCTURE)
    return (place.value, payload) if place and payload else None
