"""The word `proxy`: stands between clients and a key server, and marks what goes by."""

from __future__ import annotations

import asyncio
import contextlib
import errno
import os
import resource
import signal
import socket
import ssl
import traceback
from typing import Optional

from .. import peer, tls
from ..address import Address
from ..telling import TELLER
from ..trouble import ConnectionTrouble, Trouble, say
from .connection import Connection, Way
from .heads import tell_each_minute

SECONDS_FOR_LAST_ANSWERS = 5
# How many connections wait to be taken, where the system lets so many.
WAITING_CLIENTS = 4096
SECONDS_WITHOUT_ROOM = 0.2


class Proxy:
    """Takes connections of clients until it is told to stop, or until nothing can be marked any more."""

    def __init__(self, way: Way) -> None:
        self._way = way
        self._connections: dict[asyncio.Task[None], Connection] = {}
        self._stop = asyncio.Event()
        self._failure: Optional[BaseException] = None

    def stop(self) -> None:
        """Takes no more connections and calls; those under way may end."""
        self._stop.set()

    async def serve(self, listener: socket.socket) -> None:
        """Takes connections from the listener until it is stopped."""
        taking = asyncio.ensure_future(self._take_connections(listener))
        stopped = asyncio.ensure_future(self._stop.wait())
        await asyncio.wait({taking, stopped}, return_when=asyncio.FIRST_COMPLETED)
        if taking.done():
            self._failure = self._failure or taking.exception()
        taking.cancel()
        listener.close()
        await self._end_connections()
        if self._failure:
            raise self._failure

    async def _take_connections(self, listener: socket.socket) -> None:
        loop = asyncio.get_running_loop()
        while True:
            # Calls come first: many connections at once are taken one in a turn of the loop.
            await asyncio.sleep(0)
            try:
                client, where = await loop.sock_accept(listener)
            except OSError as error:
                say(f"a client could not be taken: {error.strerror}")
                self._way.admission.drop_oldest()
                await asyncio.sleep(SECONDS_WITHOUT_ROOM)
                continue
            connection = Connection(client, Address(where[0], where[1]), self._way)
            task = asyncio.ensure_future(self._watch(connection))
            self._connections[task] = connection
            task.add_done_callback(self._connections.pop)

    async def _watch(self, connection: Connection) -> None:
        """Serves one connection. What goes wrong on it ends it alone, whatever that is; what hinders marks ends the
        whole work."""
        try:
            await connection.serve()
        except Trouble as failure:
            self._failure = self._failure or failure
            self.stop()
        except ConnectionTrouble as trouble:
            self._tell_end(connection, str(trouble))
        except Exception as fault:  # pylint: disable=broad-exception-caught
            self._tell_end(connection, f"the connection ended by the recorder's own fault, {told(fault)}")

    def _tell_end(self, connection: Connection, why: str) -> None:
        left = ""
        if connection.open_call:
            left = f"; call {connection.open_call} stays open"
            self._way.recording.give_up(connection.open_call)
        say(f"{connection.name}: {why}{left}")

    async def _end_connections(self) -> None:
        for task, connection in list(self._connections.items()):
            connection.end_soon(task)
        if self._connections:
            await asyncio.wait(set(self._connections), timeout=SECONDS_FOR_LAST_ANSWERS)
        left = set(self._connections)
        for task in left:
            task.cancel()
        await asyncio.gather(*left, return_exceptions=True)


def told(fault: Exception) -> str:
    """A fault of our own: what it is, and where it came about."""
    where = traceback.extract_tb(fault.__traceback__)[-1]
    return f"{type(fault).__name__}: {fault} ({os.path.basename(where.filename)} line {where.lineno})"


async def reach(server: Address, context: ssl.SSLContext) -> None:
    """Connects to the server once, so that what is wrong is told before a client comes."""
    try:
        await (await peer.connect(server, context)).close()
    except ConnectionTrouble as trouble:
        raise Trouble(f"{trouble}. Look at --server, and that the server runs; then at --server-ca, --server-cert "
                      "and --server-key") from None


async def run(way: Way, listener: socket.socket) -> None:
    """Records until Ctrl-C. Clients do not wait for whoever reads what is told."""
    TELLER.waits = False
    proxy = Proxy(way)
    loop = asyncio.get_running_loop()
    for number in (signal.SIGINT, signal.SIGTERM):
        loop.add_signal_handler(number, proxy.stop)
    say(f"{Address(*listener.getsockname()[:2])} leads to {way.server}; marks go into {way.recording.path}; "
        "Ctrl-C ends")
    telling = asyncio.ensure_future(tell_each_minute(way.recording.files))
    try:
        await proxy.serve(listener)
    finally:
        telling.cancel()
        await way.recording.files.rest()


def take_all_room() -> None:
    """Lets the process have as many connections at once as it may."""
    with contextlib.suppress(OSError, ValueError):
        _, most = resource.getrlimit(resource.RLIMIT_NOFILE)
        resource.setrlimit(resource.RLIMIT_NOFILE, (most, most))


def listen(address: Address) -> socket.socket:
    """A socket that clients can come to."""
    family = socket.AF_INET6 if ":" in address.host else socket.AF_INET
    try:
        listener = socket.create_server((address.host, address.port), family=family, backlog=WAITING_CLIENTS)
    except OSError as error:
        if error.errno == errno.EADDRINUSE:
            raise Trouble(f"the port of {address} is taken: end what listens there, or give --listen another") from None
        raise Trouble(f"nothing can listen at {address}: {tls.meaning(error)}; give --listen an address of this "
                      "machine") from None
    listener.setblocking(False)
    return listener
