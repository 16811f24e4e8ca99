"""The heads of a recording, written down at a second place: who has them sees later whether something was changed."""

from __future__ import annotations

import asyncio
import errno
import os
from datetime import datetime, timedelta, timezone
from typing import TYPE_CHECKING, Optional

from ..plain import plain
from ..sealing import Chain
from ..telling import has_room
from ..trouble import Trouble, say

if TYPE_CHECKING:
    from .recorded_files import RecordedFiles

STANDARD_OUTPUT = "-"
SECONDS_BETWEEN = 60
EPOCH = datetime(1970, 1, 1, tzinfo=timezone.utc)


def line_of(chain: Chain) -> str:
    """Recording, segment, records, moment and head as they are now."""
    moment = (EPOCH + timedelta(microseconds=chain.moment or 0)).strftime("%Y-%m-%dT%H:%M:%S.%fZ")
    return (f"recording {plain(chain.header.recording)} segment {chain.header.segment} records {chain.records} "
            f"moment {moment} head {chain.seal.hex()}\n")


class Heads:
    """Where the heads go: to the end of a file, or to standard output."""

    def __init__(self, path: str) -> None:
        self.path = path
        self._number = 1
        if path != STANDARD_OUTPUT:
            try:
                self._number = os.open(path, os.O_WRONLY | os.O_APPEND | os.O_CREAT | os.O_NOFOLLOW, 0o600)
            except OSError as error:
                raise Trouble(f"{path} can't be written: {error.strerror}; give --heads another name") from None

    def tell(self, line: str) -> None:
        """Writes a line. Where that can't be, or would be waited for, the recording goes on, and it is said."""
        try:
            if not has_room(self._number):
                raise BlockingIOError(errno.EAGAIN, "nobody reads there")
            os.write(self._number, line.encode("utf-8"))
            if self.path != STANDARD_OUTPUT:
                os.fdatasync(self._number)
        except OSError as error:
            say(f"a head could not be written to {self.path}: {error.strerror}; it was {line.rstrip()}")


async def tell_each_minute(files: RecordedFiles) -> None:
    """Tells the head of a recording's files, once it is on the disk."""
    while True:
        await asyncio.sleep(SECONDS_BETWEEN)
        line: Optional[str] = files.head_line()
        await files.settle()
        files.tell_head(line)
