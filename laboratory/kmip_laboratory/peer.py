"""One side of a recorded connection, a client or the server: whole messages come from it and go to it."""

from __future__ import annotations

import asyncio
import socket
import ssl
from typing import Callable, Optional

from . import message, tls
from .address import Address
from .certificate import Shown, shown_on
from .handshakes import HANDSHAKES
from .message import Side
from .stream import Stream
from .trouble import ConnectionTrouble
from .ttlv import HEADER_LENGTH

SECONDS_TO_CLOSE = 1
# How long the other side may take to agree on TLS; and the server, to take a connection.
SECONDS_TO_GREET = 10


class Peer:
    """A client or the server, over TLS. `gone` is done as soon as its connection is closed or broken."""

    def __init__(self, stream: Stream, side: Side, shown: Shown) -> None:
        """`shown` is the certificate that was shown in the handshake: whoever is gone by now has shown it too."""
        self._stream = stream
        self._side = side
        self.shown = shown
        self._who = "the client" if side is Side.CLIENT else "the server"
        self.gone = stream.gone
        self._is_waited_for = True
        self._is_idle = False
        self._loop = asyncio.get_running_loop()
        self._limit: Optional[asyncio.TimerHandle] = None
        self._awaited_since: Optional[float] = None

    async def receive_within(self, seconds: float) -> Optional[bytes]:
        """The next message, as `receive` has it; refused where it is not whole in time."""
        self._awaited_since = self._loop.time()
        if self._limit is None:
            self._limit = self._loop.call_later(seconds, self._see_idle, seconds)
        try:
            received = await self.receive()
        finally:
            self._awaited_since = None
        if received is None and self._is_idle:
            raise ConnectionTrouble(f"no whole request came in {seconds:g} s")
        return received

    def _see_idle(self, seconds: float) -> None:
        """Ends a wait that took too long. There is one timer for all waits, since one for each takes its time."""
        waited = 0.0 if self._awaited_since is None else self._loop.time() - self._awaited_since
        if waited < seconds:
            self._limit = self._loop.call_later(seconds - waited, self._see_idle, seconds)
        else:
            self._is_idle = True
            self.stop_waiting()

    async def receive(self) -> Optional[bytes]:
        """The next message, once it is whole; None where the peer closed ahead of its first byte, or where it is no
        longer waited for."""
        try:
            if not self._stream.has(HEADER_LENGTH):
                await self._stream.wait_for(HEADER_LENGTH)
            length = message.announced_length(self._stream.first(HEADER_LENGTH), self._side)
            if not self._stream.has(length):
                await self._stream.wait_for(length)
            received = self._stream.take(length)
        except asyncio.IncompleteReadError as torn:
            if not self._is_waited_for:
                return None
            if torn.expected != HEADER_LENGTH or torn.partial:
                raise ConnectionTrouble(f"{self._who} broke off in the middle of a message") from None
            if self._stream.broken:
                raise ConnectionTrouble(f"{self._who} broke off: {tls.meaning(self._stream.broken)}") from None
            return None
        try:
            message.see(received, self._side)
        except ConnectionTrouble as trouble:
            trouble.unrecorded = received
            raise
        return received

    def stop_waiting(self) -> None:
        """Ends a wait for a message that is under way, and every later one."""
        self._is_waited_for = False
        self._stream.end()

    async def send(self, whole: bytes, within: float) -> None:
        """Sends a message to the peer; one that does not take it in time is dropped."""
        if self._stream.begin_to_send(whole):
            return
        limit = asyncio.get_running_loop().call_later(within, self._drop)
        try:
            await self._stream.send_rest()
        except OSError as error:
            if self._is_idle:
                raise ConnectionTrouble(f"{self._who} did not take a whole message in {within:g} s") from None
            raise ConnectionTrouble(f"{self._who} broke off: {tls.meaning(error)}") from None
        finally:
            limit.cancel()

    def _drop(self) -> None:
        self._is_idle = True
        self._stream.drop()

    async def close(self) -> None:
        """Closes the connection; one that does not close in time is dropped."""
        if self._limit:
            self._limit.cancel()
        await self._stream.close(SECONDS_TO_CLOSE)


async def accept(connection: socket.socket, context: ssl.SSLContext,
                 spoke: Callable[[], None] = lambda: None) -> Peer:
    """The client at the other end of a connection that was taken, once it has shown a certificate; `spoke` is told when
    it has said anything."""
    try:
        made = await asyncio.wait_for(HANDSHAKES.shake(connection, context, True, spoke), SECONDS_TO_GREET)
    except asyncio.TimeoutError:
        raise ConnectionTrouble(f"no TLS with the client: it was not through in {SECONDS_TO_GREET} s") from None
    except OSError as error:
        raise ConnectionTrouble(f"no TLS with the client: {tls.meaning(error)}") from None
    return _peer(made, Side.CLIENT)


async def connect(server: Address, context: ssl.SSLContext) -> Peer:
    """The server, over a new connection."""
    try:
        made = await asyncio.wait_for(_made(server, context), SECONDS_TO_GREET)
    except asyncio.TimeoutError:
        raise ConnectionTrouble(f"no server at {server}: it took no connection in {SECONDS_TO_GREET} s") from None
    except ssl.SSLError as error:
        raise ConnectionTrouble(f"no TLS with the server at {server}: {tls.meaning(error)}") from None
    except OSError as error:
        raise ConnectionTrouble(f"no server at {server}: {tls.meaning(error)}") from None
    return _peer(made, Side.SERVER)


def _peer(made: ssl.SSLSocket, side: Side) -> Peer:
    """The other end of a connection whose handshake is over. Its certificate is taken first: the stream closes the
    socket as soon as it finds that nobody is there any more."""
    shown = shown_on(made)
    return Peer(Stream(made), side, shown)


async def _made(server: Address, context: ssl.SSLContext) -> ssl.SSLSocket:
    return await HANDSHAKES.shake(await _reached(server), context, False)


async def _reached(server: Address) -> socket.socket:
    """A connection to the first address of the server's that takes one."""
    loop, trouble = asyncio.get_running_loop(), OSError(f"{server.host} has no address")
    for family, kind, protocol, _, where in await loop.getaddrinfo(server.host, server.port, type=socket.SOCK_STREAM):
        tried = socket.socket(family, kind, protocol)
        try:
            tried.setblocking(False)
            await loop.sock_connect(tried, where)
            return tried
        except OSError as error:
            tried.close()
            trouble = error
        except BaseException:
            tried.close()
            raise
    raise trouble
