"""The key server on its socket: all connections in one thread, over TLS.

One thread does all calls one after the other, so none waits for another's lock; a call that lets others go ahead (a
fault's) is gone on with when its time has come.
"""

from __future__ import annotations

import heapq
import itertools
import selectors
import socket
import ssl
import threading
import time
import traceback
from typing import Optional

from .. import ttlv
from ..trouble import ConnectionTrouble
from .connection import READ, Connection
from .engine import Engine, Steps
from .messages import Answer, Response
from .numbers import Reason, Status
from .requests import read_request
from .responses import write_response
from .wire import NotUnderstood

WAITING_CLIENTS = 256
SECONDS_TO_CLOSE = 5
NEWEST = (2, 1)


class Server:
    """Takes connections until it is closed. `port` is where it listens."""

    def __init__(self, engine: Engine, context: ssl.SSLContext, host: str = "127.0.0.1", port: int = 0) -> None:
        self.engine = engine
        self._context = context
        family = socket.AF_INET6 if ":" in host else socket.AF_INET
        self._listener = socket.create_server((host, port), family=family, backlog=WAITING_CLIENTS)
        self._listener.setblocking(False)
        self.port: int = self._listener.getsockname()[1]
        self._waker, self._woken = socket.socketpair()
        self._selector = selectors.DefaultSelector()
        for each in (self._listener, self._woken):
            self._selector.register(each, READ)
        self._waiting: list[tuple[float, int, Steps, Connection]] = []
        self._numbers = itertools.count()
        self._thread = threading.Thread(target=self._run, daemon=True)
        self._thread.start()

    def close(self) -> None:
        """Ends all connections, and listens no more."""
        self._waker.close()
        self._thread.join(SECONDS_TO_CLOSE)

    def __enter__(self) -> Server:
        return self

    def __exit__(self, *_: object) -> None:
        self.close()

    def _run(self) -> None:
        """Serves until the waker is closed."""
        while True:
            for key, _ in self._selector.select(self._seconds_left()):
                if key.fileobj is self._woken:
                    self._end()
                    return
                if key.fileobj is self._listener:
                    self._accept()
                else:
                    self._serve(key.data)
            while self._waiting and self._waiting[0][0] <= time.monotonic():
                _, _, steps, connection = heapq.heappop(self._waiting)
                self._serve(connection, steps)

    def _seconds_left(self) -> Optional[float]:
        """Until the first call that waits is gone on with."""
        return max(0.0, self._waiting[0][0] - time.monotonic()) if self._waiting else None

    def _end(self) -> None:
        for key in list(self._selector.get_map().values()):
            if isinstance(key.fileobj, socket.socket):
                key.fileobj.close()
        self._selector.close()

    def _accept(self) -> None:
        try:
            connection = Connection(self._listener.accept()[0], self._context)
        except OSError:
            return
        self._selector.register(connection.socket, connection.wants, connection)

    def _serve(self, connection: Connection, steps: Optional[Steps] = None) -> None:
        """Goes on with a connection, or with a call of it that waited, as far as can be done without waiting. Trouble
        ends this connection and no other."""
        before, was_there = connection.wants, connection.is_there
        try:
            if steps is None:
                connection.go_on()
            else:
                self._step(steps, connection)
            self._answer(connection)
        except (OSError, ConnectionTrouble):
            connection.is_there = False
        except Exception:  # pylint: disable=broad-exception-caught
            traceback.print_exc()
            connection.is_there = False
        if not connection.is_there and was_there:
            self._selector.unregister(connection.socket)
            connection.socket.close()
        elif connection.is_there and connection.wants != before:
            self._selector.modify(connection.socket, connection.wants, connection)

    def _answer(self, connection: Connection) -> None:
        """Answers the whole requests that came."""
        request = connection.take()
        while request is not None:
            try:
                steps = self.engine.answer(read_request(request), connection.session)
            except (ttlv.NotTtlv, NotUnderstood):
                connection.send(self._refusal())
            else:
                connection.is_busy = True
                self._step(steps, connection)
            request = connection.take()

    def _refusal(self) -> bytes:
        """A request that is not understood is refused whole, in the newest version."""
        refused = Answer(None, Status.FAILED, Reason.INVALID_MESSAGE)
        return write_response(Response(NEWEST, self.engine.clock.now(), (refused,)))

    def _step(self, steps: Steps, connection: Connection) -> None:
        """Goes on with a call, up to where it waits, or to its answer."""
        try:
            seconds = next(steps)
        except StopIteration as end:
            connection.is_busy = False
            if connection.is_there:
                connection.send(write_response(end.value))
        else:
            heapq.heappush(self._waiting, (time.monotonic() + seconds, next(self._numbers), steps, connection))
