"""Which calls of a transcript are meant: by client, object, operation, or number."""

from __future__ import annotations

import argparse
import re
from typing import NamedTuple, Optional

from ..glimpse import Glimpse, Part, identifiers
from ..operations import Operation, operation_name
from .calls import Call

NUMBERS = {operation_name(operation).lower(): operation.value for operation in Operation}
RANGE = re.compile(r"([0-9]{1,10})(?:-([0-9]{1,10}))?")


class Range(NamedTuple):
    """The calls from one number to another."""

    first: int
    last: int

    def __str__(self) -> str:
        return f"{self.first}-{self.last}"


class Selection(NamedTuple):
    """The calls of one of these clients, that name one of these objects, and have one of these operations; no names
    mean all."""

    clients: list[str]
    objects: list[str]
    operations: list[int]

    def has(self, call: Call, asked: Optional[Glimpse], answered: Optional[Glimpse]) -> bool:
        """Whether a call is meant. With `--as` the client's name stands ahead of its connection."""
        return ((not self.clients or call.client in self.clients or call.client.rpartition(" ")[0] in self.clients)
                and (not self.operations or any(part.operation in self.operations for part in _parts(asked)))
                and (not self.objects or bool(_named(call, asked, answered).intersection(self.objects))))


ALL = Selection([], [], [])


def _parts(seen: Optional[Glimpse]) -> list[Part]:
    return seen.parts if seen else []


def _named(call: Call, asked: Optional[Glimpse], answered: Optional[Glimpse]) -> set[str]:
    """The objects that the items of a call name, asked for or told."""
    named = {name for part in _parts(asked) for name in identifiers(call.request, part)}
    return named.union(name for part in _parts(answered) for name in identifiers(call.response or b"", part))


def read_operation(words: str) -> int:
    """The number of the operation with this name."""
    if words.lower() not in NUMBERS:
        raise argparse.ArgumentTypeError(f"{words!r} is no operation, as 'Get Attributes' is one")
    return NUMBERS[words.lower()]


def read_range(words: str) -> Range:
    """The calls that A-B names, or a number alone."""
    found = RANGE.fullmatch(words)
    if found is None or int(found[2] or found[1]) < int(found[1]):
        raise argparse.ArgumentTypeError(f"{words!r} is no range of calls, as 3-17 is one")
    return Range(int(found[1]), int(found[2] or found[1]))
