"""Who may come in: how many clients that have shown no certificate yet, and how many connections of each that has."""

from __future__ import annotations

import asyncio
import resource
from collections import Counter
from contextlib import contextmanager
from typing import Callable, Counter as Counted, Iterator

from ..trouble import ConnectionTrouble, say

# Whoever is in its handshake, or has not begun it. Where one more comes the oldest has to go, so that nobody is refused
# for the others: by then so many have come since that it was not one of them who needs a while.
MOST_UNKNOWN = 1024


class Admission:
    """Counts connections, in the tasks that serve them."""

    def __init__(self, most_of_a_client: int) -> None:
        self._most = most_of_a_client
        self._most_unknown = min(MOST_UNKNOWN, resource.getrlimit(resource.RLIMIT_NOFILE)[0] // 2)
        # Whoever has said nothing yet, and whoever is in the handshake, the oldest first.
        self._silent: dict[asyncio.Task[None], None] = {}
        self._shaking: dict[asyncio.Task[None], None] = {}
        self._of_client: Counted[str] = Counter()
        self._dropped = 0

    @contextmanager
    def unknown(self) -> Iterator[Callable[[], None]]:
        """While the client of this task has shown no certificate; it gives what is to be called when the client has
        said anything. Where too many are so, the oldest one of those has to go of whom there are more."""
        task = asyncio.current_task()
        assert task is not None
        if len(self._silent) + len(self._shaking) >= self._most_unknown:
            self.drop_oldest()
        self._silent[task] = None
        known: asyncio.Task[None] = task
        try:
            yield lambda: self._speaks(known)
        finally:
            self._silent.pop(task, None)
            self._shaking.pop(task, None)

    def _speaks(self, task: asyncio.Task[None]) -> None:
        if task in self._silent:
            del self._silent[task]
            self._shaking[task] = None

    def drop_oldest(self) -> None:
        """Ends one connection that has shown no certificate: the oldest of those that said nothing, or of those in the
        handshake, of whichever there are more. So whoever comes stays, where he is among few of his sort."""
        unknown = self._shaking if len(self._shaking) > len(self._silent) else self._silent
        oldest = next(iter(unknown), None)
        if oldest is None:
            return
        del unknown[oldest]
        oldest.cancel()
        self._dropped += 1
        if self._dropped & (self._dropped - 1) == 0:
            say(f"{self._dropped} connections that showed no certificate had to go for others so far")

    @contextmanager
    def one_of(self, client: str) -> Iterator[None]:
        """While one more connection of this client is served; refused where it has too many."""
        if self._of_client[client] >= self._most:
            raise ConnectionTrouble(f"{client} has {self._most} connections already, and gets no more (--connections)")
        self._of_client[client] += 1
        try:
            yield
        finally:
            self._of_client[client] -= 1
            if not self._of_client[client]:
                del self._of_client[client]
