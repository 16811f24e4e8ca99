"""The word `calibrate`: the simulated server with each fault and without any, and what the auditor says of it."""

from __future__ import annotations

import ssl
import tempfile
import time
from dataclasses import dataclass
from pathlib import Path
from typing import Iterator, NamedTuple, Optional

from .. import tls
from ..address import Address
from ..auditor import Auditor
from ..recording import rules
from ..recordings import TRANSCRIPT
from ..transcript_writer import TranscriptWriter
from ..verdicts import Verdict
from . import certificates, mixes, record, simulate
from ..auditing.decide import Decision, decide
from .drive import Job, drive
from .engine import Engine
from .faults import FAULTS
from .faults.base import Fault
from .server import Server

ROWS = ["1=NotFound", "0x43=WrongState", "0x35=TakenName"]


@dataclass(frozen=True)
class Scale:
    """How much is driven: clients, calls of a recording, calls and seconds at most for a fault, the pace of the
    server's clock, the mean pause of a client, and the steps of a search."""

    clients: int = 3
    calls: int = 100
    most_calls: int = 2_000
    seconds: float = 60
    pace: float = 10
    pause: float = 0.01
    budget: int = 20_000


class Row(NamedTuple):
    """A line of the table."""

    fault: str
    mix: str
    seed: int
    calls: int
    verdict: str
    seconds: float
    right: bool

    def line(self) -> str:
        """The row, for people and for docs/CALIBRATION.md."""
        return f"| {self.fault} | {self.mix} | {self.seed} | {self.calls} | {self.verdict} | {self.seconds:.1f} |"


class Calibration:
    """Recordings of servers that are started for it, in a folder of its own."""

    def __init__(self, auditor: Auditor, scale: Scale, folder: Path) -> None:
        self._auditor, self._scale, self._folder = auditor, scale, folder
        certificates.make(folder / "certificates")
        self._count = 0

    def _context(self, toward_clients: bool) -> ssl.SSLContext:
        made = tls.toward_clients if toward_clients else tls.toward_server
        name = "server" if toward_clients else "client"
        folder = self._folder / "certificates"
        return made(str(folder / f"{name}.pem"), str(folder / f"{name}.key"), str(folder / "authority.pem"))

    def record(self, engine: Engine, mix: str, seed: int) -> Path:
        """One recording of this server."""
        self._count += 1
        folder = self._folder / f"recording-{self._count}"
        folder.mkdir()
        record.declare(folder, engine.unique_names, [rules.read_row(row) for row in ROWS])
        with Server(engine, self._context(True)) as server, TranscriptWriter(str(folder / TRANSCRIPT)) as transcript:
            drive(Job(Address("127.0.0.1", server.port), self._context(False), mixes.find(mix),
                      clients=self._scale.clients, calls=self._scale.calls, seed=seed, pause=self._scale.pause),
                  transcript)
        return folder

    def decide(self, folder: Path) -> Decision:
        """What the auditor decides of a recording."""
        return decide(folder, self._auditor, self._scale.budget)

    def without(self, mix: str, seed: int) -> Row:
        """The server without a fault."""
        begun = time.monotonic()
        decision = self.decide(self.record(simulate.make([], self._scale.pace, seed, None, False), mix, seed))
        return Row("none", mix, seed, self._scale.calls, decision.line, time.monotonic() - begun,
                   decision.explained)

    def with_fault(self, name: str, seed: int, mix: Optional[str] = None) -> Row:
        """The server with this fault, until it is convicted, or until the calls or seconds are spent."""
        fault: type[Fault] = FAULTS[name]
        begun, calls, left = time.monotonic(), 0, "no recording in which it came about"
        mix = mix or fault.mix
        while calls < self._scale.most_calls and time.monotonic() - begun < self._scale.seconds:
            engine = simulate.make([fault], self._scale.pace, seed, None, False)
            folder = self.record(engine, mix, seed)
            if engine.struck:
                decision = self.decide(folder)
                if decision.why is not None:
                    return Row(name, mix, seed, calls + max(decision.part), told(decision.why),
                               time.monotonic() - begun, not fault.unseen)
                left = decision.line
            calls += self._scale.calls
            seed += 1
        seen = f"can't be seen: {fault.unseen}" if fault.unseen else f"not convicted: {left}"
        return Row(name, mix, seed - 1, calls, seen, time.monotonic() - begun, bool(fault.unseen))


def told(verdict: Verdict) -> str:
    """The reason that a check gives."""
    return f"{verdict.number} {verdict.name}"


def run(names: list[str], mixes_without: list[str], seed: int, auditor: Auditor, scale: Scale) -> Iterator[Row]:
    """The table, line by line."""
    with tempfile.TemporaryDirectory(prefix="kmip-drive-") as folder:
        calibration = Calibration(auditor, scale, Path(folder))
        for mix in mixes_without:
            yield calibration.without(mix, seed)
        for name in names:
            yield calibration.with_fault(name, seed)
