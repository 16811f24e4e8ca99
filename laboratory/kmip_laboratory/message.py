"""KMIP messages as the recorder sees them: whose they are, how long, which version, and when they were answered."""

from __future__ import annotations

from enum import Enum
from typing import Optional

from . import ttlv
from .trouble import ConnectionTrouble
from .ttlv import Item, Kind

PROTOCOL_VERSION = 0x420069
PROTOCOL_VERSION_MAJOR = 0x42006A
PROTOCOL_VERSION_MINOR = 0x42006B
RESPONSE_HEADER = ttlv.front(0x42007A, Kind.STRUCTURE)
TIME_STAMP = ttlv.front(0x420092, Kind.DATE_TIME)


class Side(Enum):
    """Who speaks: what its messages are called, their tag, and the tag of their headers."""

    CLIENT = ("Request Message", 0x420078, 0x420077)
    SERVER = ("Response Message", 0x42007B, 0x42007A)

    # Tables by sides are looked into for each message; that of an enumeration takes longer.
    __hash__ = object.__hash__

    def __init__(self, message_name: str, message_tag: int, header_tag: int) -> None:
        self.message_name = message_name
        self.message_tag = message_tag
        self.header_tag = header_tag


def announced_length(header: bytes, side: Side) -> int:
    """How long the message is that begins with these 8 bytes; refused where they begin none of this side."""
    try:
        length = ttlv.outermost_length(header)
    except ttlv.NotTtlv as fault:
        raise ConnectionTrouble(f"what came is no {side.message_name}: {fault}") from None
    if int.from_bytes(header[:3], "big") != side.message_tag or header[3] != Kind.STRUCTURE:
        raise ConnectionTrouble(f"what came is no {side.message_name}: it begins with {header.hex()}")
    return length


def read(message: bytes, side: Side) -> Item:
    """The item that the message is; refused where it is no TTLV."""
    try:
        return ttlv.read_item(message)
    except ttlv.NotTtlv as fault:
        raise ConnectionTrouble(f"what came is no {side.message_name}: {fault}") from None


def see(message: bytes, side: Side) -> None:
    """Refuses what is no TTLV."""
    try:
        ttlv.see_item(message)
    except ttlv.NotTtlv as fault:
        raise ConnectionTrouble(f"what came is no {side.message_name}: {fault}") from None


def time_stamp(response: bytes) -> Optional[int]:
    """The Time Stamp of a response, where it is one and has one."""
    try:
        (_, start, length), = ttlv.places_in(response, 0, len(response))
        for number, place, size in ttlv.places_in(response, start, start + length):
            if number == RESPONSE_HEADER:
                return next((int.from_bytes(response[at:at + 8], "big", signed=True) for found, at, _ in
                             ttlv.places_in(response, place, place + size) if found == TIME_STAMP), None)
    except ValueError:
        pass
    return None
