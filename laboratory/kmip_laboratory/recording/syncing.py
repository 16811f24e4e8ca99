"""When a mark is on the disk: a message goes on only then, unless nobody asks for that.

By `group`, all that wait at a moment are served by one call of the disk: while it is under way others come, and wait
for the next; two of them may be under way at once. So the more connections there are, the more marks a call serves.
"""

from __future__ import annotations

import asyncio
import contextlib
import threading
from enum import Enum
from queue import SimpleQueue
from typing import Callable, Iterable, NamedTuple, Optional

from ..appending import AppendedFile

# How many calls of the disk are under way at once.
MOST_AT_ONCE = 2
Lengths = dict[AppendedFile, int]


class Sync(Enum):
    """For which marks the disk is waited for."""

    GROUP = "group"
    ALWAYS = "always"
    NONE = "none"


class _Turn(NamedTuple):
    """A call of the disk: of which files, how long these were, and who waits for it in which loop."""

    files: Lengths
    served: list[asyncio.Future[None]]
    loop: asyncio.AbstractEventLoop


class Syncing:
    """Brings the files of a recording to the disk, and sees that they are there as they were written."""

    def __init__(self, sync: Sync, files: Callable[[], list[AppendedFile]],
                 settled: Callable[[list[AppendedFile]], None]) -> None:
        """`files` are those that have something that may not be on the disk; `settled` is told when they are."""
        self._sync = sync
        self._files = files
        self._settled = settled
        self._waiting: list[asyncio.Future[None]] = []
        self._is_begin_due = False
        self._under_way: list[_Turn] = []
        self._resting: Optional[asyncio.Future[None]] = None
        # What the threads do, which begin with the first turn.
        self._asked: SimpleQueue[_Turn] = SimpleQueue()
        self._threads: list[threading.Thread] = []

    async def settle(self) -> None:
        """Comes back when all that was written up to now is on the disk; refused where it can't be, or is gone."""
        if self._sync is not Sync.GROUP:
            self.settle_at_once(self._sync is Sync.ALWAYS)
            return
        waiting = asyncio.get_running_loop().create_future()
        self._waiting.append(waiting)
        self._begin_soon()
        await waiting

    async def rest(self) -> None:
        """Comes back when no call of the disk is under way."""
        if self._under_way:
            self._resting = asyncio.get_running_loop().create_future()
            await self._resting

    def settle_at_once(self, syncs: bool = True) -> None:
        """The same, while nothing else is done; without the disk where it `syncs` not."""
        files = self._lengths()
        if syncs:
            sync_all(files)
        self._see(files)

    def _lengths(self) -> Lengths:
        return {file: file.length for file in self._files()}

    def _see(self, files: Lengths) -> None:
        """These were brought to the disk with these lengths. What was written to one since then may not be on it."""
        for file in files:
            file.see_whole()
        self._settled([file for file, length in files.items() if file.length == length and not any(
            file in others.files for others in self._under_way)])

    def _begin_soon(self) -> None:
        """Begins to serve those that wait, once all have come that come in this turn of the loop."""
        if self._waiting and not self._is_begin_due and len(self._under_way) < MOST_AT_ONCE:
            self._is_begin_due = True
            asyncio.get_running_loop().call_soon(self._begin)

    def _begin(self) -> None:
        turn = _Turn(self._lengths(), self._waiting, asyncio.get_running_loop())
        self._waiting = []
        self._is_begin_due = False
        self._under_way.append(turn)
        if len(self._threads) < len(self._under_way):
            self._threads.append(threading.Thread(target=self._work, daemon=True, name="disk"))
            self._threads[-1].start()
        self._asked.put(turn)

    def _work(self) -> None:
        """A thread: one turn after the other."""
        while True:
            turn, trouble = self._asked.get(), None
            try:
                sync_all(turn.files)
            except BaseException as told:  # pylint: disable=broad-exception-caught
                trouble = told
            with contextlib.suppress(RuntimeError):
                # Where the loop is closed nobody waits any more.
                turn.loop.call_soon_threadsafe(self._end, turn, trouble)

    def _end(self, turn: _Turn, trouble: Optional[BaseException]) -> None:
        self._under_way.remove(turn)
        try:
            if trouble is None:
                self._see(turn.files)
        except Exception as told:  # pylint: disable=broad-exception-caught
            trouble = told
        for each in turn.served:
            if not each.done():
                _set(each, trouble)
        self._begin_soon()
        if self._resting and not self._under_way and not self._is_begin_due and not self._resting.done():
            self._resting.set_result(None)


def _set(waiting: asyncio.Future[None], trouble: Optional[BaseException]) -> None:
    if trouble is None:
        waiting.set_result(None)
    else:
        waiting.set_exception(trouble)


def sync_all(files: Iterable[AppendedFile]) -> None:
    """Brings these files to the disk."""
    for file in files:
        file.sync()
