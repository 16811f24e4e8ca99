"""A key server for tests that notes when it got and gave each message, and answers as it is told."""

from __future__ import annotations

import socket
import ssl
import threading
from pathlib import Path
from typing import Callable, Optional

Answering = Callable[[ssl.SSLSocket, bytes], None]


class Clock:
    """Counts what happens, over all threads."""

    def __init__(self) -> None:
        self._lock = threading.Lock()
        self._now = 0

    def tick(self) -> int:
        """A number above all that were given before."""
        with self._lock:
            self._now += 1
            return self._now


def context(folder: Path, name: str, server_side: bool, newest: bool = True) -> ssl.SSLContext:
    """TLS with the certificate of this name; `newest` asks for TLS 1.3, else it is TLS 1.2."""
    made = ssl.SSLContext(ssl.PROTOCOL_TLS_SERVER if server_side else ssl.PROTOCOL_TLS_CLIENT)
    made.check_hostname = False
    made.verify_mode = ssl.CERT_REQUIRED
    made.load_verify_locations(folder / "authority.pem")
    made.load_cert_chain(folder / f"{name}.pem", folder / f"{name}.key")
    made.minimum_version = made.maximum_version = ssl.TLSVersion.TLSv1_3 if newest else ssl.TLSVersion.TLSv1_2
    return made


def receive(peer: ssl.SSLSocket, first: Optional[Callable[[], None]] = None) -> bytes:
    """The next message; nothing where the peer closed. `first` is called as soon as a byte is there."""
    data = b""
    wanted = 8
    while len(data) < wanted:
        try:
            piece = peer.recv(wanted - len(data))
        except OSError:
            piece = b""
        if not piece:
            return b""
        if not data and first:
            first()
        data += piece
        if len(data) == 8:
            wanted = 8 + int.from_bytes(data[4:], "big")
    return data


class Stub:
    """Listens on a port of its own. `answering` is called with each request, sends what it likes, and may note in
    `gave` when it did; `first` is called at the first byte of a request."""

    def __init__(self, folder: Path, answering: Answering, first: Optional[Callable[[], None]] = None,
                 newest: bool = True, keylog: Optional[Path] = None) -> None:
        self.clock = Clock()
        self.got: dict[bytes, int] = {}
        self.gave: dict[bytes, int] = {}
        self.ended = threading.Event()
        self._answering = answering
        self._first = first
        self._context = context(folder, "server", True, newest)
        if keylog:
            self._context.keylog_filename = str(keylog)
        self._listener = socket.create_server(("127.0.0.1", 0), backlog=256)
        self.port = self._listener.getsockname()[1]
        threading.Thread(target=self._take, daemon=True).start()

    def close(self) -> None:
        """Takes no more connections."""
        self._listener.close()

    def _take(self) -> None:
        while True:
            try:
                peer, _ = self._listener.accept()
            except OSError:
                return
            threading.Thread(target=self._serve, args=(peer,), daemon=True).start()

    def _serve(self, plain: socket.socket) -> None:
        try:
            with self._context.wrap_socket(plain, server_side=True) as peer:
                while request := receive(peer, self._first):
                    self.got[request] = self.clock.tick()
                    self._answering(peer, request)
                self.ended.set()
        except OSError:
            self.ended.set()
