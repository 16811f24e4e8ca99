"""The records of a file that the auditor reads, one behind the other, each with its place; and which file it is."""

from __future__ import annotations

from enum import IntEnum
from typing import Iterator, NamedTuple

from . import ttlv
from .trouble import Trouble
from .ttlv import Item


class File(IntEnum):
    """The three files, by the tags of their headers."""

    TRANSCRIPT = 0x540001
    DECLARATION = 0x540030
    WITNESS = 0x540040


class Record(NamedTuple):
    """A record: the offset of its first byte, its bytes, and the item that they are."""

    place: int
    spelled: bytes
    item: Item


def read_file(path: str) -> bytes:
    """The bytes of a file."""
    try:
        with open(path, "rb") as file:
            return file.read()
    except OSError as error:
        raise Trouble(f"{path} can't be read: {error.strerror}; give the name of a file that is there") from None


def which(path: str, data: bytes) -> File:
    """Which of the three files these bytes begin."""
    tag = int.from_bytes(data[:3], "big")
    for file in File:
        if file == tag:
            return file
    raise Trouble(f"{path} is neither a transcript nor a declaration nor a witness: it begins with "
                  f"{data[:4].hex() or 'nothing'}; give a file that kmip_audit reads")


def records(path: str, data: bytes) -> Iterator[Record]:
    """All records of a file, its header the first; ends in a Trouble where it is not whole."""
    place = 0
    while place < len(data):
        try:
            spelled = data[place:place + _length_at(data, place)]
            item = ttlv.read_item(spelled)
        except ttlv.NotTtlv as fault:
            raise Trouble(f"{path} has no whole record at offset {place}: {fault}; make the file whole first "
                          "(`kmip_audit show` tells the fault)") from None
        yield Record(place, spelled, item)
        place += len(spelled)


def _length_at(data: bytes, place: int) -> int:
    header = data[place:place + ttlv.HEADER_LENGTH]
    if len(header) < ttlv.HEADER_LENGTH:
        raise ttlv.NotTtlv("its header is torn")
    return ttlv.outermost_length(header)
