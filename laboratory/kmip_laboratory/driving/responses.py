"""Responses on the wire, as the key server writes them; clients read what they need of them by glimpses."""

from __future__ import annotations

from .. import ttlv
from . import wire
from .messages import Answer, Response, Version
from .numbers import Operation, Status, Tag

FIRST_WITH_LOCATED_ITEMS = (1, 3)


def write_response(response: Response) -> bytes:
    """The bytes of a response."""
    header = ttlv.structure(
        Tag.RESPONSE_HEADER, wire.version_item(response.version), ttlv.date_time(Tag.TIME_STAMP, response.stamp),
        ttlv.integer(Tag.BATCH_COUNT, len(response.answers)))
    items = [_write_item(response.version, answer) for answer in response.answers]
    return ttlv.structure(Tag.RESPONSE_MESSAGE, header, *items)


def _write_item(version: Version, answer: Answer) -> bytes:
    parts = [] if answer.operation is None else [ttlv.enumeration(Tag.OPERATION, answer.operation)]
    if answer.batch_id is not None:
        parts.append(ttlv.byte_string(Tag.UNIQUE_BATCH_ITEM_ID, answer.batch_id))
    parts.append(ttlv.enumeration(Tag.RESULT_STATUS, answer.status))
    if answer.reason is not None:
        parts.append(ttlv.enumeration(Tag.RESULT_REASON, answer.reason))
    if answer.status in (Status.SUCCESS, Status.UNDONE):
        parts.append(ttlv.structure(Tag.RESPONSE_PAYLOAD, *_payload(version, answer)))
    return ttlv.structure(Tag.BATCH_ITEM, *parts)


def _payload(version: Version, answer: Answer) -> list[bytes]:
    made = [] if answer.object_type is None else [ttlv.enumeration(Tag.OBJECT_TYPE, answer.object_type)]
    made += [ttlv.text(Tag.UNIQUE_IDENTIFIER, identifier) for identifier in answer.identifiers]
    if answer.operation == Operation.LOCATE and version >= FIRST_WITH_LOCATED_ITEMS:
        made.insert(0, ttlv.integer(Tag.LOCATED_ITEMS, len(answer.identifiers)))
    if answer.operation == Operation.GET_ATTRIBUTES:
        made += wire.attributes(version, answer.attributes, always=True)
    if answer.operation == Operation.DISCOVER_VERSIONS:
        made += [wire.version_item(wire.read_version(words)) for words in reversed(wire.VERSIONS)]
    if answer.material is not None:
        made.append(wire.material(answer.material))
    return made
