"""Clients and servers that are gone at some moment of a connection, as a killed process or a port scan is."""

from __future__ import annotations

import contextlib
import socket
import ssl
import struct
import threading
from pathlib import Path
from typing import Callable, Optional

import messages
import stub

LINGER_AND_RESET = struct.pack("ii", 1, 0)
SECONDS = 240
PIECE = 1 << 16

STAMP = 1_700_000_000

Ending = Callable[[socket.socket], None]
Peer = Callable[[socket.socket], None]
Moment = Callable[[ssl.SSLContext, socket.socket], None]


def reset(plain: socket.socket) -> None:
    """Leaves what a killed process leaves."""
    with contextlib.suppress(OSError):
        plain.setsockopt(socket.SOL_SOCKET, socket.SO_LINGER, LINGER_AND_RESET)
    plain.close()


def close(plain: socket.socket) -> None:
    """Closes the connection, without a word of TLS."""
    plain.close()


ENDINGS: dict[str, Ending] = {"resets": reset, "closes": close}


class Hand:
    """An end of TLS whose bytes are given on by hand, so that it can stop anywhere."""

    def __init__(self, plain: socket.socket, context: ssl.SSLContext, server_side: bool) -> None:
        self._plain = plain
        self._in, self._out = ssl.MemoryBIO(), ssl.MemoryBIO()
        self._tls = context.wrap_bio(self._in, self._out, server_side=server_side)

    def shake(self, flights: int = 9) -> None:
        """Goes on with the handshake, up to its end or until so many flights were sent."""
        while True:
            try:
                self._tls.do_handshake()
                self._give_on()
                return
            except ssl.SSLWantReadError:
                flights -= self._give_on()
                if flights <= 0:
                    return
                self._in.write(self._plain.recv(PIECE))

    def send(self, data: bytes) -> None:
        """Sends it whole."""
        self._tls.write(data)
        self._give_on()

    def receive(self) -> None:
        """Takes the first bytes that come."""
        while True:
            try:
                self._tls.read(1)
                return
            except ssl.SSLWantReadError:
                piece = self._plain.recv(PIECE)
                if not piece:
                    return
                self._in.write(piece)

    def _give_on(self) -> int:
        said = self._out.read()
        self._plain.sendall(said)
        return 1 if said else 0


def clients(folder: Path, newest: bool) -> dict[str, Peer]:
    """What clients do ahead of their end, by the moment of it."""
    context = stub.context(folder, "client-1", False, newest)
    request = messages.get("key-1")

    def shaken(plain: socket.socket) -> Hand:
        hand = Hand(plain, context, False)
        hand.shake()
        return hand

    def asked(plain: socket.socket, sent: bytes) -> Hand:
        hand = shaken(plain)
        hand.send(sent)
        return hand

    return {
        "at once": lambda plain: None,
        "behind a byte": lambda plain: plain.sendall(b"\x16"),
        "behind other bytes": lambda plain: plain.sendall(b"GET / HTTP/1.1\r\n\r\n"),
        "behind its first flight": lambda plain: Hand(plain, context, False).shake(1),
        "behind the handshake": lambda plain: None if shaken(plain) else None,
        "in a request": lambda plain: None if asked(plain, request[:-1]) else None,
        "behind a request": lambda plain: None if asked(plain, request) else None,
        "behind two requests": lambda plain: None if asked(plain, 2 * request) else None,
        "in an answer": lambda plain: asked(plain, request).receive(),
    }


class Server:
    """A server that does `does` with each connection, and then ends it; while that is None, it answers at once."""

    def __init__(self, folder: Path, ending: Ending, newest: bool) -> None:
        self._context = stub.context(folder, "server", True, newest)
        self._ending = ending
        self.does: Optional[Moment] = None
        self._listener = socket.create_server(("127.0.0.1", 0), backlog=64)
        self.port = self._listener.getsockname()[1]
        threading.Thread(target=self._take, daemon=True).start()

    def close(self) -> None:
        """Takes no more connections."""
        self._listener.close()

    def _take(self) -> None:
        while True:
            try:
                plain, _ = self._listener.accept()
            except OSError:
                return
            threading.Thread(target=self._serve, args=(plain, self.does), daemon=True).start()

    def _serve(self, plain: socket.socket, does: Optional[Moment]) -> None:
        plain.settimeout(SECONDS)
        with contextlib.suppress(OSError):
            if does:
                does(self._context, plain)
                self._ending(plain)
                return
            with self._context.wrap_socket(plain, server_side=True) as peer:
                while stub.receive(peer):
                    peer.sendall(messages.not_found(STAMP))


def servers() -> dict[str, Moment]:
    """What servers do ahead of their end, by the moment of it."""
    answer = messages.not_found(STAMP)

    def shaken(context: ssl.SSLContext, plain: socket.socket) -> Hand:
        hand = Hand(plain, context, True)
        hand.shake()
        return hand

    def answered(context: ssl.SSLContext, plain: socket.socket, sent: bytes) -> None:
        hand = shaken(context, plain)
        hand.receive()
        hand.send(sent)

    return {
        "at once": lambda context, plain: None,
        "behind other bytes": lambda context, plain: plain.sendall(b"HTTP/1.1 400 Bad\r\n\r\n"),
        "behind its first flight": lambda context, plain: Hand(plain, context, True).shake(1),
        "behind the handshake": lambda context, plain: None if shaken(context, plain) else None,
        "behind a request": lambda context, plain: shaken(context, plain).receive(),
        "in its answer": lambda context, plain: answered(context, plain, answer[:-1]),
        "behind its answer": lambda context, plain: answered(context, plain, answer),
        "behind two answers": lambda context, plain: answered(context, plain, 2 * answer),
    }
