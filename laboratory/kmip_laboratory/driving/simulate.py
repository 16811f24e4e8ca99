"""The word `simulate`: the key server on a socket, with the faults that are asked for, until Ctrl-C."""

from __future__ import annotations

import errno
import signal
import ssl
import threading
from typing import Optional

from ..address import Address
from ..trouble import Trouble
from .engine import Engine
from .faults import FAULTS
from .faults.base import Fault
from .server import Server
from .store import Clock


def find(names: list[str]) -> list[type[Fault]]:
    """The faults with these names."""
    for name in names:
        if name not in FAULTS:
            raise Trouble(f"there is no fault {name!r}: `kmip_drive faults` lists them")
    return [FAULTS[name] for name in names]


def make(faults: list[type[Fault]], pace: float, seed: int, rate: Optional[float], unique_names: bool) -> Engine:
    """An engine with these faults."""
    kind: type[Engine] = type("Faulty", tuple(faults), {}) if faults else Engine
    usual = max((fault.rate_usual for fault in faults), default=0.0)
    return kind(Clock(pace), unique_names or any(fault.unique_names_usual for fault in faults), seed,
                usual if rate is None else rate)


def listen(engine: Engine, context: ssl.SSLContext, address: Address) -> Server:
    """The server at this address."""
    try:
        return Server(engine, context, address.host, address.port)
    except OSError as error:
        if error.errno == errno.EADDRINUSE:
            raise Trouble(f"the port of {address} is taken: end what listens there, or give --listen another") from None
        raise Trouble(f"nothing can listen at {address}: {error.strerror}; give --listen an address of this "
                      "machine") from None


def wait() -> None:
    """Waits for Ctrl-C, or for a signal to end."""
    ended = threading.Event()
    for number in (signal.SIGINT, signal.SIGTERM):
        signal.signal(number, lambda *_: ended.set())
    while not ended.wait(0.5):
        pass
