"""A client's connection to the key server: TLS that never waits, requests that come in pieces, answers that go out."""

from __future__ import annotations

import selectors
import socket
import ssl
from typing import Optional

from .. import message, ttlv
from ..message import Side

PIECE = 16_384
READ, WRITE = selectors.EVENT_READ, selectors.EVENT_WRITE


class Connection:
    """`is_there` holds until the client has gone. `wants` says what has to come about on the socket for it to go on.
    `is_busy` holds while a call of it is under way, and its next request is not taken then; `session` is what the
    server remembers of it."""

    def __init__(self, plain: socket.socket, context: ssl.SSLContext) -> None:
        plain.setsockopt(socket.IPPROTO_TCP, socket.TCP_NODELAY, 1)
        plain.setblocking(False)
        self.socket = context.wrap_socket(plain, server_side=True, do_handshake_on_connect=False)
        self.session: dict[str, Optional[str]] = {}
        self.wants = READ
        self.is_there = True
        self.is_busy = False
        self._is_greeted = False
        self._came, self._leaves = b"", b""

    def go_on(self) -> None:
        """Does what can be done without waiting."""
        try:
            if self._leaves:
                self.send(b"")
            elif self._is_greeted:
                self._receive()
            else:
                self.socket.do_handshake()
                self._is_greeted, self.wants = True, READ
        except ssl.SSLWantReadError:
            self.wants = READ
        except ssl.SSLWantWriteError:
            self.wants = WRITE
        except OSError:
            self.is_there = False

    def _receive(self) -> None:
        """Takes what came; nothing comes from a client that has gone."""
        piece = self.socket.recv(PIECE)
        while piece:
            self._came += piece
            if not self.socket.pending():
                return
            piece = self.socket.recv(PIECE)
        self.is_there = False

    def take(self) -> Optional[bytes]:
        """The next request, where it is whole, and the call before is done and answered."""
        if self.is_busy or self._leaves or len(self._came) < ttlv.HEADER_LENGTH:
            return None
        length = message.announced_length(self._came[:ttlv.HEADER_LENGTH], Side.CLIENT)
        if len(self._came) < length:
            return None
        request, self._came = self._came[:length], self._came[length:]
        return request

    def send(self, response: bytes) -> None:
        """Sends an answer, or what is left of one, as far as the client takes it now."""
        self._leaves += response
        try:
            while self._leaves:
                self._leaves = self._leaves[self.socket.send(self._leaves):]
            self.wants = READ
        except ssl.SSLWantReadError:
            self.wants = READ
        except ssl.SSLWantWriteError:
            self.wants = WRITE
