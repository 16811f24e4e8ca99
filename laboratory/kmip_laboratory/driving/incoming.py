"""What comes over a connection, read in large pieces, since each read costs as much as a small message."""

from __future__ import annotations

import ssl
from typing import Optional

PIECE = 16_384


class Incoming:
    """The bytes that the peer sends, in their order."""

    def __init__(self, peer: ssl.SSLSocket) -> None:
        self._peer = peer
        self._ahead = b""

    def receive(self, length: int, piece: int = PIECE) -> Optional[bytes]:
        """So many bytes, read in pieces of this size at most; None where the peer ends before they are there."""
        received = self._ahead
        while len(received) < length:
            more = self._peer.recv(piece)
            if not more:
                return None
            received += more
        self._ahead = received[length:]
        return received[:length]
