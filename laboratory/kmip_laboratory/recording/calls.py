"""Calls of a transcript, put together from their marks in one pass."""

from __future__ import annotations

import itertools
from typing import Iterator, NamedTuple, Optional

from ..glimpse import Glimpse, glimpse
from ..message import Side
from ..transcript import Begin, marks_in


class Call(NamedTuple):
    """A call: its number, the client's name, the places of its marks in the file (from 1 on), and its messages."""

    number: int
    client: str
    first: int
    last: Optional[int]
    request: bytes
    response: Optional[bytes]

    def asked(self) -> Optional[Glimpse]:
        """What the request says at first sight."""
        return glimpse(self.request, Side.CLIENT)

    def answered(self) -> Optional[Glimpse]:
        """What the response says at first sight; None for an open call too."""
        return None if self.response is None else glimpse(self.response, Side.SERVER)


def calls_in(path: str) -> Iterator[Call]:
    """The calls in the order of their ends, and then the open ones in the order of their begins."""
    under_way: dict[int, Call] = {}
    for place, mark in enumerate(marks_in(path), 1):
        if isinstance(mark, Begin):
            under_way[mark.call] = Call(mark.call, mark.client, place, None, mark.message, None)
        else:
            yield under_way.pop(mark.call)._replace(last=place, response=mark.message)
    yield from under_way.values()


def ordered_calls(path: str) -> Iterator[Call]:
    """The calls in the order of their begins. Those that ended early wait for those that began ahead of them."""
    waiting: dict[int, Call] = {}
    open_places: dict[int, int] = {}
    ready: dict[int, Call] = {}
    for place, mark in enumerate(marks_in(path), 1):
        if isinstance(mark, Begin):
            waiting[mark.call] = Call(mark.call, mark.client, place, None, mark.message, None)
            open_places[mark.call] = place
            continue
        ready[mark.call] = waiting[mark.call]._replace(last=place, response=mark.message)
        for number in list(itertools.takewhile(ready.__contains__, waiting)):
            del waiting[number]
            yield ready.pop(number)
    for number, call in waiting.items():
        yield ready.get(number, call)
