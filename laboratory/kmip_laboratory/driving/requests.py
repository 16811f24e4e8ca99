"""Requests on the wire: written by clients, read by the key server."""

from __future__ import annotations

from functools import lru_cache
from typing import Optional

from .. import ttlv
from ..ttlv import Item, Kind
from . import wire
from .messages import Ask, Request, Version
from .numbers import ATTRIBUTE_NAMES, ATTRIBUTE_TAGS, Operation, Option, Tag
from .wire import FIRST_WITH_ATTRIBUTES, NotUnderstood, need

HEADER = ttlv.front(Tag.REQUEST_HEADER, Kind.STRUCTURE)
BATCH_ITEM = ttlv.front(Tag.BATCH_ITEM, Kind.STRUCTURE)
# Headers and Batch Items stand on the second level of a message.
LEVEL = 2
# Items that are longer are not kept.
LONGEST_KEPT = 1024


def write_request(request: Request) -> bytes:
    """The bytes of a request."""
    header = [wire.version_item(request.version)]
    if request.option is not None:
        header.append(ttlv.enumeration(Tag.BATCH_ERROR_CONTINUATION_OPTION, request.option))
    if request.ordered is not None:
        header.append(ttlv.boolean(Tag.BATCH_ORDER_OPTION, request.ordered))
    header.append(ttlv.integer(Tag.BATCH_COUNT, len(request.asks)))
    items = [_write_item(request.version, ask) for ask in request.asks]
    return ttlv.structure(Tag.REQUEST_MESSAGE, ttlv.structure(Tag.REQUEST_HEADER, *header), *items)


def _write_item(version: Version, ask: Ask) -> bytes:
    parts = [ttlv.enumeration(Tag.OPERATION, ask.operation)]
    if ask.batch_id is not None:
        parts.append(ttlv.byte_string(Tag.UNIQUE_BATCH_ITEM_ID, ask.batch_id))
    return ttlv.structure(Tag.BATCH_ITEM, *parts, ttlv.structure(Tag.REQUEST_PAYLOAD, *_payload(version, ask)))


def _payload(version: Version, ask: Ask) -> list[bytes]:
    if ask.operation in (Operation.CREATE, Operation.REGISTER):
        made = [ttlv.enumeration(Tag.OBJECT_TYPE, ask.object_type or 0), wire.template(version, ask.attributes)]
        return made + ([wire.material(ask.material)] if ask.material else [])
    if ask.operation == Operation.LOCATE:
        made = [ttlv.integer(Tag.MAXIMUM_ITEMS, ask.maximum)] if ask.maximum is not None else []
        return made + wire.attributes(version, ask.attributes)
    made = [ttlv.text(Tag.UNIQUE_IDENTIFIER, ask.identifier)] if ask.identifier is not None else []
    if ask.operation == Operation.GET_ATTRIBUTES:
        return made + [_reference(version, tag) for tag in ask.references]
    if ask.operation == Operation.REVOKE:
        code = ttlv.enumeration(Tag.REVOCATION_REASON_CODE, ask.code)
        return made + [ttlv.structure(Tag.REVOCATION_REASON, code)]
    return made


def _reference(version: Version, tag: Tag) -> bytes:
    if version >= FIRST_WITH_ATTRIBUTES:
        return ttlv.enumeration(Tag.ATTRIBUTE_REFERENCE, tag)
    return ttlv.text(Tag.ATTRIBUTE_NAME, ATTRIBUTE_NAMES[tag])


def read_request(message: bytes) -> Request:
    """The request that these bytes are."""
    header, items = _frame(message)
    version, option, ordered, count = _read_header(header)
    if len(items) != count or not items:
        raise NotUnderstood("the Batch Count is not the number of items")
    return Request(version, tuple(_item(version, each) for each in items), option, ordered)


def _frame(message: bytes) -> tuple[bytes, list[bytes]]:
    """The bytes of the header, and of each Batch Item."""
    found: dict[int, list[bytes]] = {HEADER: [], BATCH_ITEM: []}
    for _, start, length in ttlv.places_in(message, 0, len(message)):
        for number, place, size in ttlv.places_in(message, start, start + length):
            if number in found:
                found[number].append(message[place - ttlv.HEADER_LENGTH:place + size])
    if not found[HEADER]:
        raise NotUnderstood("the header is missing")
    return found[HEADER][0], found[BATCH_ITEM]


# The same headers and items come again and again: there are few versions, and the hot objects are asked for often.
@lru_cache(maxsize=64)
def _read_header(spelled: bytes) -> tuple[Version, Optional[Option], Optional[bool], int]:
    """The version, what is said of batches, and the Batch Count."""
    header = ttlv.read_item(spelled, LEVEL)
    version = wire.version_of(header)
    if f"{version[0]}.{version[1]}" not in wire.VERSIONS:
        raise NotUnderstood(f"version {version[0]}.{version[1]} is not spoken")
    option = header.first(Tag.BATCH_ERROR_CONTINUATION_OPTION, Kind.ENUMERATION)
    ordered = header.first(Tag.BATCH_ORDER_OPTION, Kind.BOOLEAN)
    count = need(header.first(Tag.BATCH_COUNT, Kind.INTEGER)).value
    try:
        return version, Option(option.value) if option else None, bool(ordered.value) if ordered else None, count
    except ValueError as error:
        raise NotUnderstood(str(error)) from None


def _item(version: Version, spelled: bytes) -> Ask:
    """The item that these bytes are, kept or read."""
    return _kept_item(version, spelled) if len(spelled) <= LONGEST_KEPT else _read_item(version, spelled)


@lru_cache(maxsize=1024)
def _kept_item(version: Version, spelled: bytes) -> Ask:
    return _read_item(version, spelled)


def _read_item(version: Version, spelled: bytes) -> Ask:
    item = ttlv.read_item(spelled, LEVEL)
    operation = need(item.first(Tag.OPERATION, Kind.ENUMERATION)).value
    batch_id = item.first(Tag.UNIQUE_BATCH_ITEM_ID, Kind.BYTES)
    payload = item.first(Tag.REQUEST_PAYLOAD, Kind.STRUCTURE) or Item(Tag.REQUEST_PAYLOAD, Kind.STRUCTURE, [], 0)
    maximum = payload.first(Tag.MAXIMUM_ITEMS, Kind.INTEGER)
    object_type = payload.first(Tag.OBJECT_TYPE, Kind.ENUMERATION)
    identifiers = wire.identifiers_of(payload)
    return Ask(
        operation, identifiers[0] if identifiers else None, tuple(wire.read_attributes(version, payload)),
        tuple(_read_references(version, payload)), maximum.value if maximum else None, _read_code(payload),
        object_type.value if object_type else None, wire.read_material(payload), batch_id.value if batch_id else None)


def _read_references(version: Version, payload: Item) -> list[Tag]:
    """The attributes that are asked for; such that are not spoken here are read over."""
    if version >= FIRST_WITH_ATTRIBUTES:
        asked = [item.value for item in payload.every(Tag.ATTRIBUTE_REFERENCE, Kind.ENUMERATION)]
    else:
        asked = [ATTRIBUTE_TAGS.get(item.value, 0) for item in payload.every(Tag.ATTRIBUTE_NAME, Kind.TEXT)]
    return [Tag(number) for number in asked if number in ATTRIBUTE_NAMES]


def _read_code(payload: Item) -> int:
    reason: Optional[Item] = payload.first(Tag.REVOCATION_REASON, Kind.STRUCTURE)
    code = reason.first(Tag.REVOCATION_REASON_CODE, Kind.ENUMERATION) if reason else None
    return int(code.value) if code else 1
