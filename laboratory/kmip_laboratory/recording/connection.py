"""A client's connection, and the order of its marks, on which everything rests.

A begin mark is written when the whole request is there and before any byte of it goes on to the server; an end mark
when the whole response is there and before any byte of it goes on to the client. So a call that ended before another
began in the file did so at the server. A client's next request is looked at only after the answer to the one before
went on. Where the disk is waited for, a mark is on it by then.
"""

from __future__ import annotations

import asyncio
import socket
import ssl
from contextlib import contextmanager
from typing import Iterator, NamedTuple, Optional

from .. import peer
from ..address import Address
from ..peer import Peer
from ..plain import plain
from ..sealing import NoteKind
from ..trouble import ConnectionTrouble, say
from .admission import Admission
from .recording import Recording
from .segments import Gate


class Way(NamedTuple):
    """What all connections share: where they lead, over which TLS, and where the marks go."""

    server: Address
    toward_clients: ssl.SSLContext
    toward_server: ssl.SSLContext
    recording: Recording
    answer_within: float
    idle: float
    admission: Admission
    gate: Gate
    identities: dict[str, ssl.SSLContext]

    def toward_server_as(self, name: Optional[str]) -> ssl.SSLContext:
        """TLS toward the server for the client with this common name: as itself, or else as the recorder."""
        if self.identities and name not in self.identities:
            say(f"{name or 'a client without a name'} has no certificate by --as: the server sees the recorder's")
        return self.identities.get(name or "", self.toward_server)


class Connection:
    """One client, and the connection to the server that was made for it alone."""

    def __init__(self, client: socket.socket, address: Address, way: Way) -> None:
        self._socket = client
        self._host = address.host
        self._way = way
        self._ending = False
        self._busy = False
        self.name = str(address)
        self.open_call: Optional[int] = None

    def end_soon(self, task: asyncio.Task[None]) -> None:
        """Ends the connection, whose work is this task: now where no call is under way, else after the call."""
        self._ending = True
        if not self._busy:
            task.cancel()

    async def serve(self) -> None:
        """Takes calls from the client until one of the sides closes."""
        client = await self._greet()
        try:
            name, digest = client.shown
            with self._way.admission.one_of(name or self._host):
                known = f"{self.name}, certificate SHA-256 {digest}, name {plain(name or 'none')}"
                self.name = f"{name} {self.name}" if name and self._way.identities else name or self.name
                with self._noted(known):
                    await self._serve(client, name)
        finally:
            await client.close()

    @contextmanager
    def _noted(self, known: str) -> Iterator[None]:
        """Notes in a sealed recording that the connection began and ended, and what of it was not recorded."""
        recording, why = self._way.recording, ""
        recording.note(NoteKind.CONNECTION, known)
        try:
            yield
        except ConnectionTrouble as trouble:
            why = f": {trouble}"
            if trouble.unrecorded is not None:
                recording.note_unrecorded(f"{known}{why}", trouble.unrecorded)
            raise
        finally:
            recording.note(NoteKind.ENDED, f"{known}{why}")

    async def _greet(self) -> Peer:
        """The client, which is unknown up to its certificate."""
        with self._way.admission.unknown() as spoke:
            return await peer.accept(self._socket, self._way.toward_clients, spoke)

    async def _serve(self, client: Peer, name: Optional[str]) -> None:
        server = await peer.connect(self._way.server, self._way.toward_server_as(name))
        server.gone.add_done_callback(lambda _: client.stop_waiting())
        client.gone.add_done_callback(lambda _: self._wait_no_longer(server))
        try:
            await self._take_calls(client, server)
        finally:
            await server.close()

    def _wait_no_longer(self, server: Peer) -> None:
        """The client broke off. The server does not see that until it has answered, or until the time for that is over:
        it will have done the call in any case, and nobody would know."""
        if self.open_call is not None:
            asyncio.get_running_loop().call_later(self._way.answer_within, server.stop_waiting)

    async def _take_calls(self, client: Peer, server: Peer) -> None:
        while not self._ending:
            request = await client.receive_within(self._way.idle)
            if request is None or server.gone.done():
                return
            self._busy = True
            if self._way.gate.is_shut():
                await self._way.gate.room()
            await self._take_call(client, server, request)
            self._busy = False

    async def _take_call(self, client: Peer, server: Peer, request: bytes) -> None:
        self.open_call = self._way.recording.begin(self.name, request)
        await self._way.recording.files.settle()
        response = await self._answer(client, server, request)
        self._way.recording.end(self.open_call, response)
        self.open_call = None
        await self._way.recording.files.settle()
        await self._hand_over(client, response)

    async def _answer(self, client: Peer, server: Peer, request: bytes) -> bytes:
        if client.gone.done():
            self._wait_no_longer(server)
        await server.send(request, self._way.idle)
        response = await server.receive()
        if response is None:
            raise ConnectionTrouble("the server gave no answer" if server.gone.done() or not client.gone.done() else
                                    f"the client broke off, and no answer came in {self._way.answer_within:g} s")
        return response

    async def _hand_over(self, client: Peer, response: bytes) -> None:
        if client.gone.done():
            raise ConnectionTrouble("the client broke off; the server's answer is marked all the same")
        await client.send(response, self._way.idle)
