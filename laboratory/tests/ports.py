"""Ports for servers of tests and of documents."""

from __future__ import annotations

import contextlib
import random
import socket
from pathlib import Path

# Ports from here up to those that the system gives to whoever asks for any.
FIRST_PORT = 10_000


def free_port() -> int:
    """A port that nothing listens at, and that the system gives to nobody who asks for any: it stays free so."""
    given = Path("/proc/sys/net/ipv4/ip_local_port_range")
    last = int(given.read_text().split()[0]) if given.exists() else 32_768
    while True:
        port = random.randrange(FIRST_PORT, last) if last > FIRST_PORT else 0
        with contextlib.suppress(OSError), socket.create_server(("127.0.0.1", port)) as listener:
            return int(listener.getsockname()[1])
