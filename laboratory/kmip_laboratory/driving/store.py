"""What the key server holds: objects by identifier, which are never changed but replaced, and a clock."""

from __future__ import annotations

import time
from dataclasses import dataclass
from typing import NamedTuple, Optional

from .messages import Name
from .numbers import State


@dataclass(frozen=True)
class Thing:
    """An object, with its names, attributes, five dates and bytes; `value` is None once it is destroyed."""

    identifier: str
    object_type: int
    value: Optional[bytes]
    names: tuple[Name, ...] = ()
    algorithm: Optional[int] = None
    length: Optional[int] = None
    mask: Optional[int] = None
    initial: Optional[int] = None
    activation: Optional[int] = None
    deactivation: Optional[int] = None
    destroyed: Optional[int] = None
    compromised: Optional[int] = None

    def state(self, moment: int) -> State:
        """The state that the dates make at this moment."""
        if self.destroyed is not None:
            return State.DESTROYED if self.compromised is None else State.DESTROYED_COMPROMISED
        if self.compromised is not None:
            return State.COMPROMISED
        if self.activation is None or self.activation > moment:
            return State.PRE_ACTIVE
        if self.deactivation is None or self.deactivation > moment:
            return State.ACTIVE
        return State.DEACTIVATED


class Snapshot(NamedTuple):
    """What a store held."""

    live: dict[str, Thing]
    gone: dict[str, Thing]


class Store:
    """Objects that are live, and such that are destroyed; each identifier stands in one of the two."""

    def __init__(self) -> None:
        self._live: dict[str, Thing] = {}
        self._gone: dict[str, Thing] = {}

    def find(self, identifier: Optional[str]) -> Optional[Thing]:
        """The object with this identifier, live or destroyed."""
        if identifier is None:
            return None
        return self._live.get(identifier) or self._gone.get(identifier)

    def live(self) -> list[Thing]:
        """The live objects, the newest first."""
        return list(reversed(self._live.values()))

    def gone(self) -> list[Thing]:
        """The destroyed objects, the newest first."""
        return list(reversed(self._gone.values()))

    def put(self, thing: Thing) -> None:
        """Keeps this object, in the place of one with its identifier."""
        held, other = (self._live, self._gone) if thing.destroyed is None else (self._gone, self._live)
        other.pop(thing.identifier, None)
        held[thing.identifier] = thing

    def drop(self, identifier: str) -> None:
        """Forgets the object."""
        self._live.pop(identifier, None)
        self._gone.pop(identifier, None)

    def snapshot(self) -> Snapshot:
        """What is held now."""
        return Snapshot(dict(self._live), dict(self._gone))

    def restore(self, snapshot: Snapshot) -> None:
        """Holds again what was held then."""
        self._live, self._gone = dict(snapshot.live), dict(snapshot.gone)


class Clock:
    """Tells whole seconds, which never run back; with a pace of 10 ten of them go by in a second."""

    def __init__(self, pace: float = 1) -> None:
        self._pace = pace
        self._start = time.time()
        self._begun = time.monotonic()
        self._last = 0

    def now(self) -> int:
        """The second that it is."""
        self._last = max(self._last, int(self._start + (time.monotonic() - self._begun) * self._pace))
        return self._last
