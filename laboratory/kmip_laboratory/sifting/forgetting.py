"""Attributes taken out of what Get Attributes was asked and answered, so that all else can be judged.

An answer without an attribute is explained by every run that explains the answer with it, provided that nothing asks
for the attribute any more. So the request must name what it still wants: one that names nothing wants all.
"""

from __future__ import annotations

from typing import Callable, Optional

from .. import ttlv
from ..glimpse import SUCCESS, UNDONE, Glimpse, glimpse
from ..message import Side
from ..operations import Operation
from ..slices import Change, Slice, changed, changed_at, slices_of
from ..tag_names import tag_of_name
from ..tags import JUDGED_ATTRIBUTES, Tag
from ..ttlv import HEADER_LENGTH, Kind, front
from ..versions import JUDGED, NEARLY_JUDGED

ATTRIBUTES = front(Tag.ATTRIBUTES, Kind.STRUCTURE)
REFERENCE = front(Tag.ATTRIBUTE_REFERENCE, Kind.ENUMERATION)

# Named where nothing judged is asked for any more, since a request that names nothing asks for everything.
UNJUDGED = Tag.LAST_CHANGE_DATE
WITH_REFERENCES = {JUDGED, NEARLY_JUDGED}


def attribute_named(words: str) -> Optional[int]:
    """The judged attribute of this name, in any case."""
    wanted = {tag_of_name(name) for name in (words.strip(), words.strip().title())}
    return next((tag for tag in JUDGED_ATTRIBUTES if tag in wanted), None)


def places_of(asked: Optional[Glimpse], answered: Optional[Glimpse]) -> list[int]:
    """The items of a call that asked for attributes and were told some."""
    if asked is None or answered is None or not {asked.version, answered.version} <= WITH_REFERENCES:
        return []
    parts = zip(asked.parts, answered.parts)
    return [place for place, (part, answer) in enumerate(parts)
            if part.operation == Operation.GET_ATTRIBUTES and answer.status in (SUCCESS, UNDONE)]


def request_without(message: bytes, places: list[int], forgotten: frozenset[int]) -> bytes:
    """The request, at these items without references to what is forgotten."""
    return _changed(message, Side.CLIENT, places, lambda payload: _asking(payload, forgotten))


def response_without(message: bytes, places: list[int], forgotten: frozenset[int]) -> bytes:
    """The response, at these items without the attributes that are forgotten, and with each value told once."""
    return _changed(message, Side.SERVER, places, lambda payload: changed_at(payload, (ATTRIBUTES,), lambda told: (
        _telling(told, forgotten))))


def _changed(message: bytes, side: Side, places: list[int], change: Callable[[bytes], bytes]) -> bytes:
    """The message, with the values of the payloads of these items changed."""
    seen = glimpse(message, side)
    changes = []
    for part in [seen.parts[place] for place in places] if seen else []:
        if part.payload:
            start, stop = part.payload
            changes.append(Change((HEADER_LENGTH, part.place, start), start, stop, change(message[start:stop])))
    return changed(message, changes)


def _asking(payload: bytes, forgotten: frozenset[int]) -> bytes:
    children = slices_of(payload)
    rest = [child for child in children if not _is_reference_to(child, forgotten)]
    kept = b"".join([child.whole for child in rest])
    if any(child.front >> 8 != Tag.UNIQUE_IDENTIFIER for child in rest) or not forgotten:
        return kept
    asked_for_all = len(rest) == len(children)
    wanted = [tag for tag in JUDGED_ATTRIBUTES if tag not in forgotten] if asked_for_all else []
    return kept + b"".join([ttlv.enumeration(Tag.ATTRIBUTE_REFERENCE, tag) for tag in wanted or [UNJUDGED]])


def _is_reference_to(item: Slice, forgotten: frozenset[int]) -> bool:
    return item.front == REFERENCE and int.from_bytes(item.value, "big") in forgotten


def _telling(attributes: bytes, forgotten: frozenset[int]) -> bytes:
    told = [child.whole for child in slices_of(attributes) if child.front >> 8 not in forgotten]
    return b"".join(dict.fromkeys(told))
