"""Clients at once against a server, and what came of it."""

from __future__ import annotations

import socket
import ssl
import sys
import time
from collections import Counter
from dataclasses import dataclass, field
from typing import Counter as Counted, Optional

from .. import tls
from ..address import Address
from ..transcript_writer import TranscriptWriter
from ..trouble import Trouble
from .client import Budget, Client, Way
from .cuts import Cut, Cuts
from .known import Known
from .marks import Marks
from .messages import Version
from .mixes import Mix
from .numbers import Operation
from .plan import Plan

JUDGED = (2, 1)
SECONDS_BETWEEN_LINES = 1.0


@dataclass(frozen=True)
class Job:
    """What is to be driven: by how many clients, how long, which mix, and what befalls calls."""

    server: Address
    context: ssl.SSLContext
    mix: Mix
    version: Version = (2, 1)
    clients: int = 4
    calls: Optional[int] = None
    seconds: Optional[float] = None
    seed: int = 1
    patience: float = 30
    pause: float = 0
    cuts: Cuts = field(default_factory=lambda: Cuts({}))


@dataclass(frozen=True)
class Done:
    """What was driven."""

    job: Job
    calls: int
    seconds: float
    counts: Counted[str]

    def lines(self) -> list[str]:
        """The account, for people."""
        pace = self.calls / self.seconds if self.seconds else 0
        made = [f"{self.calls} calls by {self.job.clients} clients in {self.seconds:.1f} s, {pace:.0f} a second; seed "
                f"{self.job.seed}, mix {self.job.mix.name}"]
        for operation in Operation:
            asked = self.counts[f"{operation.name} asked"]
            if asked:
                parts = [f"{self.counts[f'{operation.name} {how}']} {how}" for how in ("done", "failed", "undone")]
                made.append(f"{operation.name.replace('_', ' ').title()}: {asked} asked, {', '.join(parts)}")
        others = ["connections", "open calls", "refused messages", "broken by the server",
                  "answers that were not understood", *(cut.value for cut in Cut)]
        made.append(", ".join(f"{self.counts[each]} {each}" for each in others
                              if self.counts[each] or each == "open calls"))
        return made


def drive(job: Job, transcript: Optional[TranscriptWriter] = None, progress: bool = False) -> Done:
    """Lets all clients make their calls, marking them where a transcript is given."""
    budget = Budget(job.calls, job.seconds, job.clients)
    known, marks = Known(job.mix.counts["hot"]), Marks(transcript, job.version != JUDGED)
    way = Way(job.server, job.context, job.version, job.cuts, job.patience, job.pause)
    clients = [Client(number, way, Plan(job.seed, number, job.mix), known, marks, budget)
               for number in range(1, job.clients + 1)]
    _reach(job)
    begun = time.monotonic()
    for client in clients:
        client.start()
    try:
        _wait(clients, budget, begun, progress and sys.stderr.isatty())
    finally:
        budget.stopped = True
    seconds = time.monotonic() - begun
    failures = [client.failure for client in clients if client.failure]
    if failures:
        raise failures[0]
    return Done(job, budget.taken, seconds, sum((client.counts for client in clients), Counter()))


def _reach(job: Job) -> None:
    """Connects once, so that what is wrong is told before a call is made."""
    try:
        with socket.create_connection(job.server, timeout=job.patience) as plain, job.context.wrap_socket(plain):
            pass
    except OSError as error:
        raise Trouble(f"no server at {job.server}: {tls.meaning(error)}. Look at --server, --ca, --cert and --key, and "
                      "that the server runs") from None


def _wait(clients: list[Client], budget: Budget, begun: float, shown: bool) -> None:
    """Waits for the clients' end; on a terminal a line tells how far they are."""
    told = begun
    for client in clients:
        while client.is_alive():
            client.join(0.2)
            now = time.monotonic()
            if shown and now - told >= SECONDS_BETWEEN_LINES:
                told = now
                print(f"\r{budget.taken} calls, {budget.taken / (now - begun):.0f} a second ", end="", file=sys.stderr,
                      flush=True)
    if shown and told != begun:
        print("\r\x1b[K", end="", file=sys.stderr, flush=True)
