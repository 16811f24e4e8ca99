"""The auditor's explanation of a no (docs/EXPLAINING.md): the calls that its lines name, and the story of an object."""

from __future__ import annotations

import re
from typing import Iterator, NamedTuple, Optional, Sequence

# What is quoted is the text of a client or of a server, and names nothing.
NAMED = re.compile(r'"[^\n]*"|\bcalls(?P<calls>(?: \d+)+)|\b(?P<what>call|turn) (?P<number>\d+)\b')
NUMBER = re.compile(r"\d+")
OBJECT = re.compile(r'object: "(?P<identifier>.*)", (?P<declared>declared|not declared)')
MORE = re.compile(r"before: (?P<more>\d+) more")
EVENT = re.compile(r"(?P<when>before|made later): turn (?P<turn>\d+) call (?P<call>-?\d+) item (?P<item>\d+) at "
                   r"(?P<date>\S+): (?P<operation>.+)")


class Mention(NamedTuple):
    """A place in a text that leads to a call."""

    start: int
    end: int
    call: int


class Event(NamedTuple):
    """An item that was done to an object: where it stands, and what it did; `later` is one behind the refused item."""

    turn: str
    call: int
    item: str
    date: str
    operation: str
    later: bool


class Story(NamedTuple):
    """What the auditor tells of the object of a refused item; `left_out` older events are not told."""

    identifier: str
    is_declared: bool
    left_out: int
    events: list[Event]


def mentions(text: str, calls: set[int], turns: dict[int, int]) -> Iterator[Mention]:
    """The calls and turns that a text of the auditor's names, of those that are there."""
    of_turn = {turn: call for call, turn in turns.items()}
    for found in NAMED.finditer(text):
        if found["calls"]:
            places = [(number.span(), int(number[0])) for number in NUMBER.finditer(text, *found.span("calls"))]
        elif found["what"]:
            number = int(found["number"])
            places = [(found.span(), of_turn.get(number, -1) if found["what"] == "turn" else number)]
        else:
            continue
        yield from (Mention(start, end, call) for (start, end), call in places if call in calls)


def story(lines: Sequence[str]) -> Optional[Story]:
    """The story that these lines tell; None where they tell none."""
    told = next((found for found in map(OBJECT.fullmatch, lines) if found), None)
    if told is None:
        return None
    left_out = next((int(found["more"]) for found in map(MORE.fullmatch, lines) if found), 0)
    events = [Event(found["turn"], int(found["call"]), found["item"], found["date"], found["operation"],
                    found["when"] == "made later") for found in map(EVENT.fullmatch, lines) if found]
    return Story(told["identifier"], told["declared"] == "declared", left_out, events)


def split(text: str, places: Sequence[Mention]) -> Iterator[tuple[str, Optional[int]]]:
    """The pieces of a text, each with the call to which it leads."""
    told = 0
    for place in places:
        yield text[told:place.start], None
        yield text[place.start:place.end], place.call
        told = place.end
    yield text[told:], None
