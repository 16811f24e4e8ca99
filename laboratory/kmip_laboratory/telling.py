"""Standard error, as a place that may be gone, full, or read by nobody: no work ends by it.

A program that serves others does not wait for whoever reads it either: what nobody takes is left out, and counted.
"""

from __future__ import annotations

import contextlib
import os
import select
import sys

# A pipe with any room takes so many bytes without a wait.
PIECE = select.PIPE_BUF
STANDARD = 2


class Teller:
    """Writes lines to standard error, behind the name of the program; `waits` says whether for whoever reads them."""

    def __init__(self) -> None:
        self.name = "kmip_record"
        self.waits = True
        self._left_out = 0

    def tell(self, words: str) -> None:
        """Writes a line, where it can be written."""
        line = f"{self.name}: {words}\n"
        with contextlib.suppress(OSError, ValueError, AttributeError):
            number = self._number()
            if number is None:
                print(line, end="", file=sys.stderr, flush=True)
            elif self.waits or has_room(number):
                more = f"{self.name}: nobody read the {self._left_out} lines before\n" if self._left_out else ""
                self._left_out = 0
                self._write(number, f"{more}{line}".encode("utf-8", "backslashreplace"))
            else:
                self._left_out += 1

    @staticmethod
    def _number() -> int | None:
        """The descriptor of standard error; None where it is no file, as in a test."""
        try:
            return sys.stderr.fileno()
        except (OSError, ValueError):
            return None

    def _write(self, number: int, data: bytes) -> None:
        while data and (self.waits or has_room(number)):
            data = data[os.write(number, data[:PIECE]):]


def has_room(number: int) -> bool:
    """Whether a piece can be written at once; of a pipe that nobody reads any more the write tells it."""
    waiting = select.poll()
    waiting.register(number, select.POLLOUT)
    return bool(waiting.poll(0))


def hold_standard_files() -> None:
    """Opens those of the first three descriptors that were closed, so that no file which is made takes their place and
    gets what is printed."""
    number = os.open(os.devnull, os.O_RDWR)
    while number <= STANDARD:
        number = os.open(os.devnull, os.O_RDWR)
    os.close(number)


TELLER = Teller()
