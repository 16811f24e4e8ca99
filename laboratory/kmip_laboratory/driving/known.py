"""What all clients know together: identifiers that answers told, which of them are gone, and the server's second."""

from __future__ import annotations

import threading
import time
from dataclasses import replace
from typing import Optional

from ..glimpse import SUCCESS, Part
from .messages import Ask, Attribute
from .numbers import Operation, Reason
from .plan import Pick, Planned

TELLING = frozenset({Operation.CREATE.value, Operation.REGISTER.value, Operation.LOCATE.value})
DESTROY, NOT_FOUND = Operation.DESTROY.value, Reason.ITEM_NOT_FOUND.value
MOST_LIVE = 200
MOST_GONE = 4
UNKNOWN = ("nobody-1", "nobody-2", "nobody-3")


class Known:
    """Learned from answers; the newest few live objects are the hot ones, on which calls meet."""

    def __init__(self, hot: int) -> None:
        self._hot = hot
        self._lock = threading.Lock()
        self._live: list[str] = []
        self._gone: list[str] = []
        self._stamp: Optional[int] = None

    def ask(self, planned: Planned) -> Ask:
        """The item as it is sent now."""
        with self._lock:
            now = int(time.time()) if self._stamp is None else self._stamp
            identifier = None if planned.pick is None else self._picked(planned.pick)
        dates = tuple(Attribute(tag, now + offset) for tag, offset in planned.dates)
        if not dates and identifier is None:
            return planned.ask
        return replace(planned.ask, identifier=identifier, attributes=planned.ask.attributes + dates)

    def _picked(self, pick: Pick) -> str:
        pools = {"hot": self._live[-self._hot:], "old": self._live, "gone": self._gone}
        pool = pools.get(pick.kind) or (pools["hot"] if pick.kind != "unknown" else []) or list(UNKNOWN)
        return pool[int(pick.draw * len(pool))]

    def learn(self, asks: list[Ask], stamp: int, answers: list[tuple[Part, list[str]]]) -> None:
        """Takes note of what an answer told: its Time Stamp, and each item with the identifiers that it names."""
        with self._lock:
            self._stamp = stamp
            for ask, (part, told) in zip(asks, answers):
                if part.status == SUCCESS and ask.operation in TELLING:
                    for identifier in told:
                        self._add(identifier)
                elif ask.identifier is not None and (
                        (ask.operation == DESTROY and part.status == SUCCESS) or part.reason == NOT_FOUND):
                    self._remove(ask.identifier)

    def _add(self, identifier: str) -> None:
        if identifier not in self._live and identifier not in self._gone:
            self._live.append(identifier)
            del self._live[:-MOST_LIVE]

    def _remove(self, identifier: str) -> None:
        if identifier in self._live:
            self._live.remove(identifier)
            self._gone.append(identifier)
            del self._gone[:-MOST_GONE]
