"""Items as the bytes that they are, looked into only where that is asked for: a pass over a long transcript changes a
few of them, and hands on the others as they came."""

from __future__ import annotations

import struct
from typing import Callable, NamedTuple

from . import ttlv
from .ttlv import HEADER, HEADER_LENGTH, Kind, NotTtlv

FRONT_LENGTH = 4
LENGTH = struct.Struct(">I")
STRUCTURE = Kind.STRUCTURE.value


class Slice(NamedTuple):
    """An item: its tag and type as one number, the bytes of its value, and all its bytes, with header and padding."""

    front: int
    value: bytes
    whole: bytes

    def text(self) -> str:
        """The text that its value is."""
        try:
            return self.value.decode("utf-8")
        except UnicodeDecodeError:
            raise NotTtlv("a text that is not UTF-8") from None


def slices_of(data: bytes) -> list[Slice]:
    """The items that stand one after the other in these bytes."""
    return [Slice(number, data[place:place + length], data[place - HEADER_LENGTH:place + length + -length % 8])
            for number, place, length in ttlv.places_in(data, 0, len(data))]


def structure(front: int, value: bytes) -> bytes:
    """The structure with this front, of the items that these bytes are."""
    return HEADER.pack(front, len(value)) + value


def with_tag(tag: int, item: Slice) -> bytes:
    """The item under another tag."""
    return (tag << 8 | item.front & 0xFF).to_bytes(FRONT_LENGTH, "big") + item.whole[FRONT_LENGTH:]


class Change(NamedTuple):
    """Other bytes in the place of those from `start` up to `stop`. `within` are the offsets of the values of all
    structures that they stand in; their lengths change with them."""

    within: tuple[int, ...]
    start: int
    stop: int
    made: bytes


def changed(message: bytes, changes: list[Change]) -> bytes:
    """The message with these changes, which are given in the order of their places."""
    made = bytearray(message)
    for within, start, stop, new in reversed(changes):
        made[start:stop] = new
        more = len(new) - (stop - start)
        for place in within if more else ():
            LENGTH.pack_into(made, place - FRONT_LENGTH, LENGTH.unpack_from(made, place - FRONT_LENGTH)[0] + more)
    return bytes(made)


def changed_at(data: bytes, path: tuple[int, ...], change: Callable[[bytes], bytes]) -> bytes:
    """These items, with `change` made in the values of the structures to which this path of fronts leads."""
    if not path:
        return change(data)
    return b"".join([structure(path[0], changed_at(each.value, path[1:], change)) if each.front == path[0]
                     else each.whole for each in slices_of(data)])
