"""When one transcript is to be followed by another: after so many calls or seconds, while no call is under way, or none
but those that are left behind."""

from __future__ import annotations

import asyncio
import re
from pathlib import Path
from typing import Callable, NamedTuple, Optional


class Segments(NamedTuple):
    """After how many calls, or how many seconds, a new file is due."""

    calls: Optional[int] = None
    seconds: Optional[float] = None

    @property
    def are_asked(self) -> bool:
        """Whether there are to be several files at all."""
        return self.calls is not None or self.seconds is not None


ONE_FILE = Segments()


class Due:
    """Says whether a new file is due, by the calls of this one and by a clock, which shows 0 until it is set."""

    def __init__(self, segments: Segments, clock: Callable[[], float]) -> None:
        self._segments = segments
        self._clock = clock
        self._began: Optional[float] = None
        self.calls = 0

    def begin(self) -> None:
        """Counts a call."""
        if self.calls == 0:
            self._began = self._clock() or None
        self.calls += 1

    def restart(self) -> None:
        """Begins a new file."""
        self.calls = 0

    def is_due(self) -> bool:
        """Whether a new file is to begin as soon as no call is under way."""
        calls, seconds = self._segments
        if self._began is None:
            self._began = self._clock() or None
        return self.calls > 0 and ((calls is not None and self.calls >= calls) or (
            seconds is not None and self._began is not None and self._clock() - self._began >= seconds))


def segment_path(out: str, number: int) -> str:
    """The name of a file of several: its number stands ahead of the ending."""
    path = Path(out)
    return str(path.with_name(f"{path.stem}-{number:04d}{path.suffix}"))


def paths_of(out: str, segments: Segments) -> list[str]:
    """The file that is written to; of several the first, and those that stand under the names of others already."""
    if not segments.are_asked:
        return [out]
    path = Path(out)
    name = re.compile(rf"{re.escape(path.stem)}-\d{{4,}}{re.escape(path.suffix)}")
    return [segment_path(out, 1), *(str(there) for there in path.parent.glob("*") if name.fullmatch(there.name))]


def last_number(out: str) -> int:
    """The highest number of the files of a recording that are there; 0 where none is."""
    path = Path(out)
    name = re.compile(rf"{re.escape(path.stem)}-(\d{{4,}}){re.escape(path.suffix)}")
    found = (name.fullmatch(there.name) for there in path.parent.glob("*"))
    return max((int(each[1]) for each in found if each), default=0)


class Gate:
    """Holds new requests for a short time where a new file is due and calls are under way, until none is. Those that
    are under way for all of that time are left behind in their file."""

    def __init__(self, is_wanted: Callable[[], bool], leave_behind: Callable[[], None], seconds: float) -> None:
        self._is_wanted = is_wanted
        self._leave_behind = leave_behind
        self._seconds = seconds
        self._quiet = asyncio.Event()
        self._until: Optional[float] = None

    def look(self) -> None:
        """Lets the held requests go, where no new file is wanted any more."""
        if not self._is_wanted():
            self._quiet.set()

    def is_shut(self) -> bool:
        """Whether a request has to wait for `room`."""
        return self._is_wanted()

    async def room(self) -> None:
        """Comes back when a request may be marked."""
        now = asyncio.get_running_loop().time()
        if self._until is None:
            self._until = now + self._seconds
            self._quiet.clear()
        try:
            await asyncio.wait_for(self._quiet.wait(), max(0.0, self._until - now))
        except asyncio.TimeoutError:
            if self._is_wanted():
                self._leave_behind()
        self._until = None
