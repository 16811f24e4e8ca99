"""Which versions a server speaks, by Discover Versions (KMIP 2.1, section 6.1.16)."""

from __future__ import annotations

import asyncio
import ssl
from typing import Iterable, Optional

from .. import peer, ttlv
from ..address import Address
from ..glimpse import SUCCESS, glimpse
from ..message import Side
from ..operations import Operation
from ..tags import Tag
from ..trouble import ConnectionTrouble, Trouble
from ..ttlv import Item, Kind
from ..versions import JUDGED, TRANSLATED, Version

NEWEST_FIRST = sorted((*TRANSLATED, JUDGED), reverse=True)
# 1.0 has no Discover Versions.
OLDEST = NEWEST_FIRST[-1]
SECONDS_TO_ANSWER = 10


async def newest(server: Address, context: ssl.SSLContext) -> Version:
    """The newest version that both the server and the laboratory speak. It is asked in one version after the other, the
    newest first, up to one that it takes."""
    for asked in NEWEST_FIRST:
        listed = await _listed(server, context, asked)
        common = [version for version in NEWEST_FIRST if version in (listed or ())]
        if common:
            return common[0]
    raise Trouble(f"the server at {server} does not say which versions it speaks: give one by --kmip, as 1.2")


async def _listed(server: Address, context: ssl.SSLContext, asked: Version) -> Optional[list[Version]]:
    """The versions that a server lists where it is asked in this one; None where it does not take it."""
    try:
        connection = await peer.connect(server, context)
    except ConnectionTrouble as trouble:
        raise Trouble(f"{trouble}. Look at --server, --ca, --cert and --key, and that the server runs") from None
    try:
        await connection.send(_request(asked), SECONDS_TO_ANSWER)
        response = await asyncio.wait_for(connection.receive(), SECONDS_TO_ANSWER)
    except (ConnectionTrouble, asyncio.TimeoutError):
        return None
    finally:
        await connection.close()
    return _read(response, asked) if response else None


def _request(asked: Version) -> bytes:
    version = ttlv.structure(Tag.PROTOCOL_VERSION, ttlv.integer(Tag.PROTOCOL_VERSION_MAJOR, asked.major),
                             ttlv.integer(Tag.PROTOCOL_VERSION_MINOR, asked.minor))
    header = ttlv.structure(Side.CLIENT.header_tag, version, ttlv.integer(Tag.BATCH_COUNT, 1))
    item = ttlv.structure(Tag.BATCH_ITEM, ttlv.enumeration(Tag.OPERATION, Operation.DISCOVER_VERSIONS),
                          ttlv.structure(Tag.REQUEST_PAYLOAD))
    return ttlv.structure(Side.CLIENT.message_tag, header, item)


def _read(response: bytes, asked: Version) -> Optional[list[Version]]:
    """The versions in an answer. A server of 1.0 refuses the operation, in its own version."""
    seen = glimpse(response, Side.SERVER)
    if seen is None or seen.version != asked or len(seen.parts) != 1:
        return None
    part = seen.parts[0]
    if part.status != SUCCESS or part.payload is None:
        return [OLDEST] if asked == OLDEST else None
    start, stop = part.payload
    payload = ttlv.read_item(response[start - ttlv.HEADER_LENGTH:stop])
    return list(_versions(payload.every(Tag.PROTOCOL_VERSION, Kind.STRUCTURE))) or [asked]


def _versions(items: Iterable[Item]) -> Iterable[Version]:
    for item in items:
        major = item.first(Tag.PROTOCOL_VERSION_MAJOR, Kind.INTEGER)
        minor = item.first(Tag.PROTOCOL_VERSION_MINOR, Kind.INTEGER)
        if major and minor:
            yield Version(major.value, minor.value)
