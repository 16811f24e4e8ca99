"""TTLV, the binary encoding of KMIP: items are made and read as docs/FORMATS.md has them."""

from __future__ import annotations

import struct
from enum import IntEnum
from typing import Any, NamedTuple, Optional

LONGEST_ITEM = 1_048_576
DEEPEST_LEVEL = 16
HEADER_LENGTH = 8


class Kind(IntEnum):
    """The types of items."""

    STRUCTURE = 1
    INTEGER = 2
    LONG_INTEGER = 3
    BIG_INTEGER = 4
    ENUMERATION = 5
    BOOLEAN = 6
    TEXT = 7
    BYTES = 8
    DATE_TIME = 9
    INTERVAL = 10
    DATE_TIME_EXTENDED = 11


SHORT_NUMBERS = (Kind.INTEGER, Kind.ENUMERATION, Kind.INTERVAL)
LONG_NUMBERS = (Kind.LONG_INTEGER, Kind.BOOLEAN, Kind.DATE_TIME, Kind.DATE_TIME_EXTENDED)

HEADER = struct.Struct(">II")
# Whole items of numbers: header, value, and for those of 4 bytes the padding.
WHOLE_INTEGER, WHOLE_ENUMERATION, WHOLE_LONG = struct.Struct(">IIi4x"), struct.Struct(">III4x"), struct.Struct(">IIq")
PADDINGS = tuple(bytes(-length % 8) for length in range(8))
# The members that are met most, since a look into an enumeration takes its time.
STRUCTURE, INTEGER, BIG_INTEGER, ENUMERATION, BOOLEAN, TEXT, BYTES, DATE_TIME, DATE_TIME_EXTENDED = (
    Kind.STRUCTURE, Kind.INTEGER, Kind.BIG_INTEGER, Kind.ENUMERATION, Kind.BOOLEAN, Kind.TEXT, Kind.BYTES,
    Kind.DATE_TIME, Kind.DATE_TIME_EXTENDED)
# By the plain numbers of types, for the same reason.
KINDS: dict[int, Kind] = {kind.value: kind for kind in Kind}
LENGTHS: dict[int, int] = {kind.value: 4 if kind in SHORT_NUMBERS else 8 for kind in SHORT_NUMBERS + LONG_NUMBERS}
# Of those of which any value will do.
PLAIN_LENGTHS = {number: length for number, length in LENGTHS.items() if number != BOOLEAN}
BOOLEANS = (bytes(8), bytes(7) + b"\x01")
NUMBERS: dict[int, struct.Struct] = {kind.value: struct.Struct(form) for kind, form in {
    Kind.INTEGER: ">i", Kind.LONG_INTEGER: ">q", Kind.ENUMERATION: ">I", Kind.BOOLEAN: ">Q", Kind.DATE_TIME: ">q",
    Kind.INTERVAL: ">I", Kind.DATE_TIME_EXTENDED: ">q"}.items()}


class NotTtlv(ValueError):
    """The bytes are no item; the text says what is wrong and at which offset."""


class Item(NamedTuple):
    """An item that was read. Its kind says of which type `value` is: items of a structure, a number, whether something
    is so, a text, or bytes. `place` is the offset of its value in the bytes that it was read from."""

    tag: int
    kind: Kind
    value: Any
    place: int

    def children(self) -> list["Item"]:
        """The items of a structure; of any other item none."""
        return self.value if isinstance(self.value, list) else []

    def first(self, tag: int, kind: Kind) -> Optional["Item"]:
        """The first child with this tag, where it is of this kind."""
        value = self.value
        for child in value if isinstance(value, list) else ():
            if child[0] == tag:
                return child if child[1] == kind else None
        return None

    def every(self, tag: int, kind: Kind) -> list["Item"]:
        """All children with this tag and kind."""
        return [child for child in self.children() if child[0] == tag and child[1] == kind]


def structure(tag: int, *children: bytes) -> bytes:
    """A structure of these items."""
    return _item(tag, STRUCTURE, b"".join(children))


def integer(tag: int, number: int) -> bytes:
    """A signed number of 32 bits."""
    return WHOLE_INTEGER.pack(tag << 8 | INTEGER, 4, number)


def enumeration(tag: int, number: int) -> bytes:
    """An unsigned number of 32 bits that stands for something."""
    return WHOLE_ENUMERATION.pack(tag << 8 | ENUMERATION, 4, number)


def date_time(tag: int, seconds: int) -> bytes:
    """A moment in whole seconds."""
    return WHOLE_LONG.pack(tag << 8 | DATE_TIME, 8, seconds)


def date_time_extended(tag: int, microseconds: int) -> bytes:
    """A moment in microseconds."""
    return WHOLE_LONG.pack(tag << 8 | DATE_TIME_EXTENDED, 8, microseconds)


def boolean(tag: int, value: bool) -> bytes:
    """True or false."""
    return WHOLE_LONG.pack(tag << 8 | BOOLEAN, 8, value)


def text(tag: int, value: str) -> bytes:
    """A text in UTF-8; what UTF-8 can't spell becomes a question mark."""
    return _item(tag, TEXT, value.encode("utf-8", "replace"))


def byte_string(tag: int, value: bytes) -> bytes:
    """A string of bytes."""
    return _item(tag, BYTES, value)


def spell(item: Item) -> bytes:
    """The bytes of an item that was read, with zeros as padding."""
    kind, value = item.kind, item.value
    if kind is STRUCTURE:
        return _item(item.tag, kind, b"".join(map(spell, value)))
    if kind is TEXT:
        return text(item.tag, value)
    if kind is BYTES or kind is BIG_INTEGER:
        return _item(item.tag, kind, value)
    return _item(item.tag, kind, NUMBERS[kind].pack(value))


def _item(tag: int, kind: Kind, value: bytes) -> bytes:
    length = len(value)
    return HEADER.pack(tag << 8 | kind, length) + value + PADDINGS[length % 8]


def padding(length: int) -> int:
    """How many bytes bring a value of this length up to a multiple of 8."""
    return -length % 8


def outermost_length(header: bytes) -> int:
    """The bytes of the whole outermost item that begins with these 8, padding counted."""
    length = int.from_bytes(header[4:8], "big")
    _checked_kind(header[3], length, 0)
    whole = HEADER_LENGTH + length + padding(length)
    if whole > LONGEST_ITEM:
        raise NotTtlv(f"an item of {whole:,} bytes, more than {LONGEST_ITEM:,}")
    return whole


def read_item(data: bytes, level: int = 1) -> Item:
    """The one item that these bytes are, which stands on this level."""
    _see_outermost(data)
    return _read_items(data, 0, len(data), level)[0]


def see_item(data: bytes) -> None:
    """Refuses bytes that are not one item, as `read_item` does, and makes nothing of them."""
    _see_outermost(data)
    if not _are_plain(data, 0, len(data), 1):
        _see_items(data, 0, len(data), 1)


def _see_outermost(data: bytes) -> None:
    if len(data) < HEADER_LENGTH:
        raise NotTtlv(f"{len(data)} bytes, fewer than the {HEADER_LENGTH} of a header")
    whole = outermost_length(data)
    if whole != len(data):
        raise NotTtlv(f"an item of {whole} bytes, in {len(data)}")


def front(tag: int, kind: Kind) -> int:
    """Tag and type as one number, which the first four bytes of an item are."""
    return tag << 8 | kind.value


Place = tuple[int, int, int]


def places_in(data: bytes, start: int, stop: int) -> list[Place]:
    """Front, offset of the value and its length, of each item that stands from `start` up to `stop`, one after the
    other; what is in them is not looked at."""
    found = []
    unpack = HEADER.unpack_from
    try:
        while start < stop:
            number, length = unpack(data, start)
            place = start + HEADER_LENGTH
            found.append((number, place, length))
            start = place + length + -length % 8
    except struct.error:
        raise NotTtlv(f"a header that runs past its structure at offset {start}") from None
    if start > stop:
        raise NotTtlv(f"an item that runs past its structure at offset {found[-1][1] - HEADER_LENGTH}")
    return found


def _read_items(data: bytes, start: int, stop: int, level: int) -> list[Item]:
    """The items on this level that stand from `start` up to `stop`, where their structure's value ends."""
    _see_level(level, start, stop)
    items = []
    # As `Item(..)`, in half of the time.
    new = tuple.__new__
    for number, place, length in places_in(data, start, stop):
        kind = _checked_kind(number & 0xFF, length, place - HEADER_LENGTH)
        if kind is STRUCTURE:
            value = _read_items(data, place, place + length, level + 1)
        else:
            value = _value(kind, data, place, length)
        items.append(new(Item, (number >> 8, kind, value, place)))
    return items


def _are_plain(data: bytes, start: int, stop: int, level: int) -> bool:
    """Whether these are items as nearly all are, so that nothing of them is to be refused; what else they are is for
    `_see_items` to say, which takes twice as long."""
    unpack, lengths = HEADER.unpack_from, PLAIN_LENGTHS
    while stop - start >= HEADER_LENGTH:
        number, length = unpack(data, start)
        kind = number & 0xFF
        start += HEADER_LENGTH
        if lengths.get(kind) == length:
            start += 8
        elif kind == STRUCTURE:
            if length % 8 or level == DEEPEST_LEVEL or start + length > stop or not _are_plain(
                    data, start, start + length, level + 1):
                return False
            start += length
        elif kind == TEXT and data[start:start + length].isascii() or kind == BYTES:
            start += length + -length % 8
        elif kind == BOOLEAN and length == 8 and data[start:start + 8] in BOOLEANS:
            start += 8
        else:
            return False
    return start == stop


def _see_items(data: bytes, start: int, stop: int, level: int) -> None:
    """Refuses what `_read_items` refuses."""
    _see_level(level, start, stop)
    for number, place, length in places_in(data, start, stop):
        kind = _checked_kind(number & 0xFF, length, place - HEADER_LENGTH)
        if kind is STRUCTURE:
            _see_items(data, place, place + length, level + 1)
        elif kind is TEXT or kind is BOOLEAN:
            _value(kind, data, place, length)


def _see_level(level: int, start: int, stop: int) -> None:
    if level > DEEPEST_LEVEL and start < stop:
        raise NotTtlv(f"more than {DEEPEST_LEVEL} levels at offset {start}")


def _checked_kind(number: int, length: int, start: int) -> Kind:
    """The type with this number, where such an item may have this length."""
    kind = KINDS.get(number)
    if kind is None:
        raise NotTtlv(f"an item of the unknown type {number:02X} at offset {start}")
    if kind is STRUCTURE or kind is BIG_INTEGER:
        is_right = length % 8 == 0 and (length > 0 or kind is STRUCTURE)
    else:
        is_right = LENGTHS.get(number, length) == length
    if not is_right:
        raise NotTtlv(f"an item of type {number:02X} with the length {length} at offset {start}")
    return kind


def _value(kind: Kind, data: bytes, place: int, length: int) -> Any:
    """The value that stands there, of an item that is no structure."""
    if kind is TEXT:
        try:
            return data[place:place + length].decode("utf-8")
        except UnicodeDecodeError:
            raise NotTtlv(f"a text that is not UTF-8 at offset {place}") from None
    if kind is BYTES or kind is BIG_INTEGER:
        return data[place:place + length]
    number = NUMBERS[kind].unpack_from(data, place)[0]
    if kind is not BOOLEAN:
        return number
    if number > 1:
        raise NotTtlv(f"a Boolean that is neither 0 nor 1 at offset {place}")
    return number == 1
