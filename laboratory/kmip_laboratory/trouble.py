"""What goes wrong, told to people: what it is, and what to do about it. Nothing of it is raw: names and texts from
outside stand in it."""

import os
import sys
from typing import Optional

from .plain import plain
from .telling import TELLER


class Trouble(Exception):
    """Ends the whole work. Its text says what is wrong and what to do."""

    def __str__(self) -> str:
        return plain(super().__str__())


class WrongWords(Trouble):
    """The words can't be meant so. It ends the work ahead of its begin, with the status of words that nobody knows."""


class ConnectionTrouble(Exception):
    """Ends one connection alone. Its text says what went wrong on it; `unrecorded` is a message that came whole and was
    not recorded."""

    unrecorded: Optional[bytes] = None

    def __str__(self) -> str:
        return plain(super().__str__())


def hush() -> None:
    """What is still printed goes nowhere, since nobody reads it: so nothing is said of the pipe at the end."""
    os.dup2(os.open(os.devnull, os.O_WRONLY), sys.stdout.fileno())


def say(words: str) -> None:
    """Tells the person at the terminal something, on one line; what is meant for other programs goes to standard
    output."""
    TELLER.tell(plain(words))
