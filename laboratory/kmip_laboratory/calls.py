"""The calls of a transcript: their marks, their messages, and what each item asked and was answered.

This is a reading for people and for the choice of calls; whether an answer is possible, the auditor alone says.
"""

from __future__ import annotations

from enum import IntEnum
from typing import Iterator, NamedTuple, Optional

from . import message, ttlv
from .records import File, records, which
from .sealing import Chain
from .tags import Tag
from .transcript import BEGIN_MARK, CALL, CLIENT, END_MARK, MESSAGE, read_unsealed
from .trouble import Trouble
from .ttlv import Item, Kind

Name = tuple[str, int]


class Status(IntEnum):
    """How an item ended."""

    SUCCESS = 0
    FAILED = 1
    PENDING = 2
    UNDONE = 3


class Piece(NamedTuple):
    """An item of a call: what was asked, and what was answered at its place."""

    operation: Optional[int]
    status: Optional[int]
    reason: Optional[int]
    identifiers: frozenset[str]
    answered: frozenset[str]
    names: frozenset[Name]
    told: bool


class Call(NamedTuple):
    """A call: its number and client, the offsets and bytes of its marks, its messages, its stamp and its items. What an
    open call lacks is None."""

    number: int
    client: str
    begin: int
    end: Optional[int]
    marks: tuple[bytes, bytes]
    request: bytes
    response: Optional[bytes]
    stamp: Optional[int]
    pieces: list[Piece]
    ordered: bool
    refused: bool


class Transcript(NamedTuple):
    """A transcript: its header, its calls in the order of their begin marks, and of a sealed one what is known of it.
    The header and the marks are those of version 1."""

    header: bytes
    calls: list[Call]
    chain: Optional[Chain] = None


def read_transcript(path: str) -> Transcript:
    """The transcript in a file."""
    data, chain = read_unsealed(path)
    if which(path, data) is not File.TRANSCRIPT:
        raise Trouble(f"{path} is no transcript, but a {which(path, data).name.lower()}: give the files in their order")
    header = b""
    begins: dict[int, tuple[int, bytes, Item]] = {}
    ends: dict[int, tuple[int, bytes, Item]] = {}
    for record in records(path, data):
        call = record.item.first(CALL, Kind.INTEGER)
        if record.item.tag == File.TRANSCRIPT:
            header += record.spelled
        elif call is None or record.item.tag not in (BEGIN_MARK, END_MARK):
            raise Trouble(f"{path} has no mark at offset {record.place}; `kmip_audit check` tells what is wrong with "
                          "it")
        else:
            marks = begins if record.item.tag == BEGIN_MARK else ends
            marks[call.value] = (record.place, record.spelled, record.item)
    return Transcript(header, [_call(number, begin, ends.get(number)) for number, begin in begins.items()], chain)


def _call(number: int, begin: tuple[int, bytes, Item], end: Optional[tuple[int, bytes, Item]]) -> Call:
    client = begin[2].first(CLIENT, Kind.TEXT)
    request = _message(begin[2])
    response = _message(end[2]) if end else None
    asked, answered = _item(request), _item(response)
    header = asked.first(Tag.REQUEST_HEADER, Kind.STRUCTURE) if asked else None
    order = header.first(Tag.BATCH_ORDER_OPTION, Kind.BOOLEAN) if header else None
    answers = answered.every(Tag.BATCH_ITEM, Kind.STRUCTURE) if answered else []
    asks = asked.every(Tag.BATCH_ITEM, Kind.STRUCTURE) if asked else []
    return Call(
        number, client.value if client else "", begin[0], end[0] if end else None, (begin[1], end[1] if end else b""),
        request, response, message.time_stamp(response) if response is not None else None,
        [_piece(asks[place] if place < len(asks) else None, answers[place] if place < len(answers) else None)
         for place in range(max(len(asks), len(answers)))],
        order is None or order.value is True or len(asks) < 2,
        len(answers) == 1 and _number(answers[0], Tag.OPERATION) is None
        and _number(answers[0], Tag.RESULT_STATUS) == Status.FAILED)


def _message(mark: Item) -> bytes:
    told = mark.first(MESSAGE, Kind.BYTES)
    return bytes(told.value) if told else b""


def _item(spelled: Optional[bytes]) -> Optional[Item]:
    """The item that a message is; None where it is none."""
    if spelled is None:
        return None
    try:
        return ttlv.read_item(spelled)
    except ttlv.NotTtlv:
        return None


def _piece(ask: Optional[Item], answer: Optional[Item]) -> Piece:
    asked = ask.first(Tag.REQUEST_PAYLOAD, Kind.STRUCTURE) if ask else None
    told = answer.first(Tag.RESPONSE_PAYLOAD, Kind.STRUCTURE) if answer else None
    operation = _number(ask, Tag.OPERATION) if ask else _number(answer, Tag.OPERATION)
    return Piece(
        operation, _number(answer, Tag.RESULT_STATUS), _number(answer, Tag.RESULT_REASON),
        frozenset(_texts(asked, Tag.UNIQUE_IDENTIFIER)), frozenset(_texts(told, Tag.UNIQUE_IDENTIFIER)),
        frozenset(names(asked)), bool(told and told.children()))


def _number(item: Optional[Item], tag: int) -> Optional[int]:
    found = item.first(tag, Kind.ENUMERATION) if item else None
    return found.value if found else None


def _texts(item: Optional[Item], tag: int) -> Iterator[str]:
    """Every text with this tag, at any depth."""
    for child in item.children() if item else []:
        if child.tag == tag and child.kind == Kind.TEXT:
            yield child.value
        yield from _texts(child, tag)


def names(item: Optional[Item]) -> set[Name]:
    """The names in the Attributes of a payload or of an entry."""
    attributes = item.first(Tag.ATTRIBUTES, Kind.STRUCTURE) if item else None
    found: set[Name] = set()
    for name in attributes.every(Tag.NAME, Kind.STRUCTURE) if attributes else []:
        value, kind = name.first(Tag.NAME_VALUE, Kind.TEXT), name.first(Tag.NAME_TYPE, Kind.ENUMERATION)
        if value:
            found.add((value.value, kind.value if kind else 1))
    return found
