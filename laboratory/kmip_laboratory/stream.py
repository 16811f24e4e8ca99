"""A connection over TLS in the loop: bytes come from it and go to it."""

from __future__ import annotations

import asyncio
import contextlib
import errno
import os
import ssl
from typing import Optional

PIECE = 1 << 16
# So many bytes are read ahead of whoever takes them.
MOST_AHEAD = 1 << 18


class Stream:
    """Both ends have agreed on TLS. `gone` is done as soon as the other end closes, or the connection breaks; `broken`
    says how, where it did not just close."""

    def __init__(self, made: ssl.SSLSocket) -> None:
        self._loop = asyncio.get_running_loop()
        self._socket = made
        self._number = made.fileno()
        self._came = bytearray()
        self._wanted = 0
        self._reading: Optional[asyncio.Future[None]] = None
        self._sending: Optional[asyncio.Future[None]] = None
        self._unsent = memoryview(b"")
        self._is_over = False
        self._is_read = False
        self.broken: Optional[OSError] = None
        self.gone: asyncio.Future[None] = self._loop.create_future()
        self._read_on()

    def has(self, count: int) -> bool:
        """Whether so many bytes are there."""
        return len(self._came) >= count

    async def wait_for(self, count: int) -> None:
        """Comes back when so many bytes are there; torn where no more come."""
        self._wanted = count
        while len(self._came) < count:
            if self._is_over:
                raise asyncio.IncompleteReadError(bytes(self._came), count)
            if not self._is_read:
                self._read_on()
                continue
            self._reading = self._loop.create_future()
            try:
                await self._reading
            finally:
                self._reading = None

    def first(self, count: int) -> bytes:
        """So many of the bytes that are there, which stay there."""
        return bytes(self._came[:count])

    def take(self, count: int) -> bytes:
        """So many of the bytes that are there."""
        found = bytes(self._came[:count])
        del self._came[:count]
        return found

    def end(self) -> None:
        """No more bytes are waited for, now or later."""
        self._is_over = True
        _wake(self._reading)

    def begin_to_send(self, data: bytes) -> bool:
        """Sends what the system takes at once; answers whether that is all of it."""
        self._unsent = memoryview(data)
        if not self.gone.done():
            self._push()
        return not self._unsent

    async def send_rest(self) -> None:
        """Comes back when all of it is with the system; refused where the connection is gone by then."""
        while self._unsent:
            if self.gone.done():
                raise self.broken or ConnectionResetError(errno.ECONNRESET, "it closed the connection")
            self._sending = self._loop.create_future()
            try:
                await self._sending
            finally:
                self._sending = None

    def drop(self) -> None:
        """Closes the connection at once."""
        self._lose(ConnectionAbortedError(errno.ECONNABORTED, "the connection was dropped"))

    async def close(self, seconds: float) -> None:
        """Says that it is closed, waits for the other end to say so too, for so long, and closes it."""
        if not self.gone.done() and not self._unsent:
            with contextlib.suppress(OSError, ValueError):
                self._socket.unwrap()
            await asyncio.wait({self.gone}, timeout=seconds)
        self.drop()

    def _read_on(self) -> None:
        """Reads whenever there is something; what the TLS has already is no news of the socket's."""
        self._is_read = True
        self._loop.add_reader(self._number, self._take)
        self._take()

    def _take(self) -> None:
        try:
            while self._is_read:
                piece = self._socket.recv(PIECE)
                if not piece:
                    self._lose(self._reset())
                    break
                self._came += piece
                if len(self._came) >= max(MOST_AHEAD, self._wanted):
                    self._is_read = False
                    self._loop.remove_reader(self._number)
                elif not self._socket.pending():
                    # More would be news of the socket's.
                    break
        except (ssl.SSLWantReadError, ssl.SSLWantWriteError):
            pass
        except OSError as error:
            self._lose(error)
        if len(self._came) >= self._wanted or self._is_over:
            _wake(self._reading)
        if self._unsent:
            self._push()

    def _reset(self) -> Optional[OSError]:
        """That the other end broke the connection off, where it did more than to close it: TLS tells both alike."""
        try:
            self._socket.getpeername()
        except OSError:
            return ConnectionResetError(errno.ECONNRESET, os.strerror(errno.ECONNRESET))
        return None

    def _push(self) -> None:
        """Sends as much as the system takes."""
        try:
            while self._unsent:
                self._unsent = self._unsent[self._socket.send(self._unsent):]
        except ssl.SSLWantReadError:
            # It goes on behind what is read next.
            return
        except ssl.SSLWantWriteError:
            self._loop.add_writer(self._number, self._push_on)
            return
        except OSError as error:
            self._lose(error)
            return
        _wake(self._sending)

    def _push_on(self) -> None:
        """The system takes more."""
        self._loop.remove_writer(self._number)
        self._push()

    def _lose(self, error: Optional[OSError]) -> None:
        """The other end has closed the connection, or it broke."""
        if self._socket.fileno() != self._number:
            return
        if error is None and not self._is_over:
            # What came ahead of its end is still to be taken.
            self._stop()
        else:
            self.broken = self.broken or error
            self._stop()
            self._socket.close()

    def _stop(self) -> None:
        self._loop.remove_reader(self._number)
        self._loop.remove_writer(self._number)
        self._is_read = False
        self._is_over = True
        if not self.gone.done():
            self.gone.set_result(None)
        _wake(self._reading)
        _wake(self._sending)


def _wake(waiting: Optional[asyncio.Future[None]]) -> None:
    if waiting and not waiting.done():
        waiting.set_result(None)
