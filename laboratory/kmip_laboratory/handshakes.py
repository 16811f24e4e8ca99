"""Handshakes of TLS. What they compute is done by threads, step by step, and what they wait for is waited for in the
loop: so nobody who is slow in one, or says nothing, holds up another, and many at once hold up no call."""

from __future__ import annotations

import asyncio
import contextlib
import socket
import ssl
from collections import deque
from concurrent.futures import ThreadPoolExecutor
from typing import Awaitable, Callable, Deque, Optional

# While the loop does calls, others compute for handshakes.
THREADS = 3


class _Step:
    """A step of a handshake, in a thread. It has the socket for itself up to its end."""

    def __init__(self, made: ssl.SSLSocket) -> None:
        self._made = made
        self._is_left = False

    def run(self) -> None:
        """Does it, unless nobody waits for it any more."""
        if not self._is_left:
            self._made.do_handshake()

    def leave(self, done: asyncio.Future[None]) -> None:
        """Closes the socket behind the step, and not ahead of its end: another connection would get its number."""
        self._is_left = True
        done.add_done_callback(self._close)

    def _close(self, done: asyncio.Future[None]) -> None:
        if not done.cancelled():
            done.exception()
        self._made.close()


class Handshakes:
    """All handshakes of the process."""

    def __init__(self) -> None:
        self._pool = ThreadPoolExecutor(THREADS, "handshake")
        self._loop: Optional[asyncio.AbstractEventLoop] = None
        self._begin()

    def _begin(self) -> None:
        """Begins anew, as in a new loop: nobody there waits for what another left."""
        self._under_way = 0
        # Those who wait for a thread: for a first step, and for a later one, which nobody comes to who only begins.
        self._first: list[asyncio.Future[None]] = []
        self._later: Deque[asyncio.Future[None]] = deque()

    async def shake(self, connection: socket.socket, context: ssl.SSLContext, server_side: bool,
                    spoke: Optional[Callable[[], None]] = None) -> ssl.SSLSocket:
        """The connection over TLS, once both sides have agreed on it; `spoke` is told when the client has begun to. The
        connection is closed where it comes to nothing."""
        connection.setblocking(False)
        try:
            if spoke:
                # Who says nothing costs no more than this.
                await _readable(connection)
                spoke()
            with contextlib.suppress(OSError):
                connection.setsockopt(socket.IPPROTO_TCP, socket.TCP_NODELAY, 1)
            made = context.wrap_socket(connection, server_side=server_side, do_handshake_on_connect=False)
        except BaseException:
            connection.close()
            raise
        is_first = True
        while True:
            try:
                await self._turn(is_first)
            except BaseException:
                made.close()
                raise
            waiting = await self._step(made)
            if waiting is None:
                return made
            is_first = False
            try:
                await waiting(made)
            except BaseException:
                made.close()
                raise

    async def _turn(self, is_first: bool) -> None:
        """Comes back when a thread is free for a step. Later steps come first, and of first ones the newest: who floods
        us with begun handshakes is behind everybody who goes on with his own, or comes behind the flood."""
        loop = asyncio.get_running_loop()
        if loop is not self._loop:
            self._loop = loop
            self._begin()
        if self._under_way < THREADS:
            self._under_way += 1
            return
        turn = loop.create_future()
        if is_first:
            self._first.append(turn)
        else:
            self._later.append(turn)
        try:
            await turn
        except asyncio.CancelledError:
            if not turn.cancelled():
                self._pass_on()
            raise

    def _pass_on(self, _: object = None) -> None:
        """A thread is free."""
        while self._later or self._first:
            turn = self._later.popleft() if self._later else self._first.pop()
            if not turn.done():
                turn.set_result(None)
                return
        self._under_way -= 1

    async def _step(self, made: ssl.SSLSocket) -> Optional[Callable[[socket.socket], Awaitable[None]]]:
        """Does a step; answers what has to be waited for ahead of the next one, if there is one."""
        step = _Step(made)
        done = asyncio.get_running_loop().run_in_executor(self._pool, step.run)
        done.add_done_callback(self._pass_on)
        try:
            await asyncio.shield(done)
        except ssl.SSLWantReadError:
            return _readable
        except ssl.SSLWantWriteError:
            return _writable
        except BaseException:
            step.leave(done)
            raise
        return None


HANDSHAKES = Handshakes()


async def _readable(made: socket.socket) -> None:
    """Comes back when something is there to be read."""
    loop, ready, number = asyncio.get_running_loop(), asyncio.get_running_loop().create_future(), made.fileno()
    loop.add_reader(number, _set, ready)
    try:
        await ready
    finally:
        loop.remove_reader(number)


async def _writable(made: socket.socket) -> None:
    """Comes back when something can be written."""
    loop, ready, number = asyncio.get_running_loop(), asyncio.get_running_loop().create_future(), made.fileno()
    loop.add_writer(number, _set, ready)
    try:
        await ready
    finally:
        loop.remove_writer(number)


def _set(ready: asyncio.Future[None]) -> None:
    if not ready.done():
        ready.set_result(None)
