"""Questions to a key server, one at a time: a request of one item, and its answer in the form of version 2.1."""

from __future__ import annotations

import ssl
from types import TracebackType
from typing import Optional

from .. import message, peer, ttlv
from ..address import Address
from ..message import PROTOCOL_VERSION, PROTOCOL_VERSION_MAJOR, PROTOCOL_VERSION_MINOR, Side
from ..operations import Operation
from ..peer import Peer
from ..translation.messages import Translator
from ..trouble import ConnectionTrouble, Trouble
from ..ttlv import Item, Kind
from ..versions import Version

BATCH_COUNT = 0x42000D
BATCH_ITEM = 0x42000F
OPERATION = 0x42005C
REQUEST_PAYLOAD = 0x420079
RESPONSE_PAYLOAD = 0x42007C
RESULT_MESSAGE = 0x42007D
RESULT_REASON = 0x42007E
RESULT_STATUS = 0x42007F
SUCCESS = 0
SECONDS_TO_ASK = 60


class Failed(Exception):
    """The server refused; the text is its reason."""


class Questions:
    """A connection over which a server is asked; to be used in an `async with`."""

    def __init__(self, server: Address, context: ssl.SSLContext, version: Version) -> None:
        self._server = server
        self._context = context
        self._version = version
        self._translator = Translator()
        self._peer: Optional[Peer] = None
        self._asked = 0
        # The Time Stamp of the last answer, where it had one: the server's clock.
        self.stamp: Optional[int] = None

    async def __aenter__(self) -> Questions:
        try:
            self._peer = await peer.connect(self._server, self._context)
        except ConnectionTrouble as trouble:
            raise Trouble(f"{trouble}. Look at --server, and that the server runs; then at --server-ca, --server-cert "
                          "and --server-key") from None
        return self

    async def __aexit__(self, kind: Optional[type[BaseException]], error: Optional[BaseException],
                        trace: Optional[TracebackType]) -> None:
        await self._connected.close()

    @property
    def _connected(self) -> Peer:
        """The server, which is there within the `async with`."""
        if self._peer is None:
            raise ValueError("a question ahead of the connection")
        return self._peer

    async def ask(self, operation: Operation, *payload: bytes) -> Item:
        """The Response Payload of a successful answer."""
        request = self._request(operation, payload)
        self._translator.message(self._asked + 1, Side.CLIENT, request)
        try:
            await self._connected.send(request, SECONDS_TO_ASK)
            received = await self._connected.receive()
        except ConnectionTrouble as trouble:
            raise Trouble(f"{self._server} could not be asked: {trouble}") from None
        if received is None:
            raise Trouble(f"{self._server} closed the connection in place of an answer")
        self._asked += 1
        self.stamp = message.time_stamp(received)
        return _payload_of(message.read(self._translator.message(self._asked, Side.SERVER, received), Side.SERVER))

    def _request(self, operation: Operation, payload: tuple[bytes, ...]) -> bytes:
        version = ttlv.structure(PROTOCOL_VERSION, ttlv.integer(PROTOCOL_VERSION_MAJOR, self._version.major),
                                 ttlv.integer(PROTOCOL_VERSION_MINOR, self._version.minor))
        header = ttlv.structure(Side.CLIENT.header_tag, version, ttlv.integer(BATCH_COUNT, 1))
        item = ttlv.structure(BATCH_ITEM, ttlv.enumeration(OPERATION, operation),
                              ttlv.structure(REQUEST_PAYLOAD, *payload))
        return ttlv.structure(Side.CLIENT.message_tag, header, item)


def _payload_of(response: Item) -> Item:
    item = response.first(BATCH_ITEM, Kind.STRUCTURE)
    status = item.first(RESULT_STATUS, Kind.ENUMERATION) if item else None
    if item is None or status is None:
        raise Failed("the answer has no Result Status")
    if status.value != SUCCESS:
        reason = item.first(RESULT_REASON, Kind.ENUMERATION)
        told = item.first(RESULT_MESSAGE, Kind.TEXT)
        raise Failed(f"reason {reason.value if reason else 'not told'}, {told.value if told else 'no message'}")
    return item.first(RESPONSE_PAYLOAD, Kind.STRUCTURE) or Item(RESPONSE_PAYLOAD, Kind.STRUCTURE, [], 0)
