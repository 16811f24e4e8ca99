"""The word `list`: a line for each call of a transcript, or both messages of one call."""

from __future__ import annotations

from datetime import datetime, timedelta, timezone
from typing import Iterator, Optional

from .. import ttlv
from ..enumerations import REASONS, STATUSES, number_name
from ..glimpse import Glimpse, Part, identifiers
from ..hiding import CONTAINERS, is_shown
from ..message import Side
from ..operations import Operation, operation_name
from ..plain import plain
from ..tag_names import tag_name
from ..transcript import marks_in
from ..trouble import Trouble
from ..ttlv import Item, Kind
from ..untranslated import Untranslated
from .calls import Call, ordered_calls
from .selection import ALL, Selection

MOST_IDENTIFIERS = 3
BETWEEN = "  "


def lines(path: str, selection: Selection = ALL) -> Iterator[str]:
    """A line for each call that is meant, in the order of their begins: number, client, marks, moment, each item."""
    untranslated = Untranslated(path)
    for call in ordered_calls(path):
        untranslated.take(call.request)
        untranslated.take(call.response)
        asked, answered = call.asked(), call.answered()
        if not selection.has(call, asked, answered):
            continue
        marks = f"marks {call.first}-{call.last or ''}"
        moment = date(answered.stamp) if answered and answered.stamp is not None else "-"
        yield BETWEEN.join([f"call {call.number}", plain(call.client), marks, moment, *_items(call, asked, answered)])
    untranslated.tell()


def _items(call: Call, asked: Optional[Glimpse], answered: Optional[Glimpse]) -> list[str]:
    if asked is None:
        return ["no Request Message"]
    front = [] if str(asked.version) == "2.1" else [f"version {asked.version or 'none'}"]
    if answered and answered.is_refusal:
        operations = ", ".join(operation_name(part.operation or 0) for part in asked.parts)
        return [*front, f"{operations}: refused as a whole {_status(answered.parts[0])}"]
    answers: list[Optional[Part]] = [*answered.parts] if answered else []
    answers += [None] * (len(asked.parts) - len(answers))
    return front + [_item(call, part, answer) for part, answer in zip(asked.parts, answers)]


def _item(call: Call, asked: Part, answer: Optional[Part]) -> str:
    named = identifiers(call.request, asked)
    if answer and call.response and not named:
        named = identifiers(call.response, answer)
    more = f" and {len(named) - MOST_IDENTIFIERS} more" if len(named) > MOST_IDENTIFIERS else ""
    told = "".join(f" {plain(name)}" for name in named[:MOST_IDENTIFIERS]) + more
    if answer is None:
        return f"{operation_name(asked.operation or 0)}{told}: no answer"
    counted = f" {len(named)} listed:" if asked.operation == Operation.LOCATE and answer.status == 0 else ""
    return f"{operation_name(asked.operation or 0)}{counted}{told}: {_status(answer)}"


def _status(part: Part) -> str:
    status = STATUSES.get(part.status if part.status is not None else -1, f"status {part.status}")
    return status if part.reason is None else f"{status} ({REASONS.get(part.reason, f'reason {part.reason:X}')})"


def call_lines(path: str, number: int, with_keys: bool) -> Iterator[str]:
    """Both messages of a call, an item on a line. What may be a key is hidden, unless `with_keys` asks for it."""
    untranslated = Untranslated(path)
    found = []
    for mark in marks_in(path):
        untranslated.take(mark.message)
        if mark.call == number:
            found.append(mark)
    if not found:
        raise Trouble(f"{path} has no call {number}; `kmip_record list {path}` has the numbers of its calls")
    for mark, side in zip(found, Side):
        try:
            yield from item_lines(ttlv.read_item(mark.message), with_keys)
        except ttlv.NotTtlv as fault:
            yield f"no {side.message_name}: {fault}"
    untranslated.tell()


def item_lines(item: Item, with_keys: bool, level: int = 0, contained: bool = False) -> Iterator[str]:
    """An item and those in it, each on a line; `contained` where it stands in what is hidden whole."""
    front = "  " * level + tag_name(item.tag)
    if item.kind is Kind.STRUCTURE:
        yield front
        for child in item.children():
            yield from item_lines(child, with_keys, level + 1, contained or item.tag in CONTAINERS)
    elif with_keys or is_shown(item.tag, item.kind, item.value, contained):
        yield f"{front}: {_value(item)}"
    else:
        yield f"{front}: hidden{_length(item)}"


def _length(item: Item) -> str:
    return f", {len(item.value)} bytes" if isinstance(item.value, bytes) else ""


def _value(item: Item) -> str:
    if isinstance(item.value, bytes):
        return item.value.hex()
    if item.kind is Kind.TEXT:
        return f'"{plain(item.value)}"'
    if item.kind is Kind.ENUMERATION:
        name = number_name(item.tag, item.value)
        return f"{name} ({item.value:X})" if name else f"{item.value:X}"
    return date(item.value) if item.kind is Kind.DATE_TIME else str(item.value)


def date(seconds: int) -> str:
    """A moment as a date, or in seconds where there is no date for it."""
    try:
        return (datetime(1970, 1, 1, tzinfo=timezone.utc) + timedelta(seconds=seconds)).strftime("%Y-%m-%dT%H:%M:%SZ")
    except OverflowError:
        return str(seconds)
