"""A file that is only ever appended to: it is opened once, and looked at whenever what was written has to be there."""

from __future__ import annotations

import contextlib
import fcntl
import os

from .trouble import Trouble

NEW = os.O_WRONLY | os.O_APPEND | os.O_CREAT | os.O_EXCL | os.O_NOFOLLOW
THERE = os.O_WRONLY | os.O_APPEND | os.O_NOFOLLOW


class AppendedFile:
    """A file that only its owner may read. `length` is how many bytes were written."""

    def __init__(self, path: str, goes_on_at: int = 0) -> None:
        """Makes the file; where it `goes_on_at` a length above 0, it is there, and has that length."""
        self.path = path
        self.length = goes_on_at
        self._is_open = False
        try:
            self._number = os.open(path, THERE if goes_on_at else NEW, 0o600)
            self._is_open = True
            self._hold()
            if not goes_on_at:
                sync_folder(path)
        except FileExistsError:
            raise Trouble(f"{path} is there already, and recorded calls can't be had again: move it away, or "
                          "give --out another name") from None
        except OSError as error:
            raise Trouble(f"{path} can't be written: {error.strerror}; give --out another name") from None

    def _hold(self) -> None:
        """Nobody else appends to it."""
        try:
            fcntl.flock(self._number, fcntl.LOCK_EX | fcntl.LOCK_NB)
        except BlockingIOError:
            os.close(self._number)
            raise Trouble(f"{self.path} is written by another recorder: end that first") from None
        except OSError:
            # A file system without locks.
            return

    def append(self, record: bytes) -> None:
        """Writes a record; where that comes to grief half-way, the file is cut back to the records before."""
        written = 0
        try:
            while written < len(record):
                written += os.write(self._number, record[written:])
        except OSError as error:
            with contextlib.suppress(OSError):
                if os.fstat(self._number).st_size == self.length + written:
                    os.ftruncate(self._number, self.length)
            raise Trouble(f"{self.path} can't be written: {error.strerror}; it is whole up to here, and nothing "
                          "went on unmarked. Make room and record into another file") from None
        self.length += len(record)

    def sync(self) -> None:
        """Comes back when all that was written up to now is on the disk."""
        try:
            os.fdatasync(self._number)
        except OSError as error:
            raise Trouble(f"{self.path} can't be brought to the disk: {error.strerror}; nothing goes on. Look at the "
                          "disk and record into another file") from None

    def see_whole(self) -> None:
        """Refuses a file that is gone, or that isn't as long as what was written."""
        there = os.fstat(self._number)
        if there.st_nlink == 0:
            raise Trouble(f"{self.path} is gone: it was removed while it was recorded, and what was recorded with it. "
                          "Nothing goes on; find out who removed it, and record into another file")
        if there.st_size != self.length:
            raise Trouble(f"{self.path} has {there.st_size} bytes, and {self.length} were written: somebody else cut "
                          "or wrote it. Nothing goes on; find out who, and record into another file")

    def close(self) -> None:
        """Closes the file."""
        if self._is_open:
            self._is_open = False
            os.close(self._number)


def sync_folder(path: str) -> None:
    """Brings the folder of a new file to the disk, so that its name is there after a loss of power too."""
    with contextlib.suppress(OSError):
        number = os.open(os.path.dirname(path) or os.curdir, os.O_RDONLY)
        try:
            os.fsync(number)
        finally:
            os.close(number)
