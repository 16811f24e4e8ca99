"""Addresses as people write them: HOST:PORT, and [::1]:5696 for the sixth version of IP."""

from __future__ import annotations

import argparse
from typing import NamedTuple


class Address(NamedTuple):
    """Where something listens."""

    host: str
    port: int

    def __str__(self) -> str:
        return f"[{self.host}]:{self.port}" if ":" in self.host else f"{self.host}:{self.port}"


def read_address(words: str) -> Address:
    """The address that these words are."""
    host, colon, port = words.rpartition(":")
    host = host[1:-1] if host.startswith("[") and host.endswith("]") else host
    if not colon or not host or not port.isascii() or not port.isdigit() or int(port) > 65_535:
        raise argparse.ArgumentTypeError(f"{words!r} is no HOST:PORT, as 127.0.0.1:5696 is one")
    return Address(host, int(port))
