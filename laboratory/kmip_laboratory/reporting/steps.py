"""The items of a call at its turn: what each asked, and what it was answered."""

from __future__ import annotations

from typing import NamedTuple, Optional

from .. import message, ttlv
from ..calls import Call, Status
from ..operations import Operation
from ..tags import Tag
from ..ttlv import Item, Kind
from .turns import Turn

BIRTHS = frozenset({Operation.CREATE, Operation.REGISTER})


class Step(NamedTuple):
    """An item that was done: its operation, its Request Payload, how it ended and why, and its Response Payload, which
    the witness may have given."""

    operation: Optional[int]
    asked: Optional[Item]
    status: Optional[int]
    reason: Optional[int]
    told: Optional[Item]

    @property
    def has_succeeded(self) -> bool:
        """Whether it is judged as Success at its place."""
        return self.status in (Status.SUCCESS, Status.UNDONE)

    @property
    def identifier(self) -> Optional[str]:
        """The object that it names; None where it means the placeholder."""
        return _identifier(self.asked)

    @property
    def made(self) -> Optional[str]:
        """The identifier that its answer names first."""
        return _identifier(self.told)


class Taken(NamedTuple):
    """A call at its turn: the moment of its response, its Batch Error Continuation Option and count of items, and the
    items that were answered, as they were done. One that the witness answers is no part of the recording."""

    call: Call
    now: Optional[int]
    option: Optional[int]
    asks: int
    steps: list[Step]
    is_recorded: bool


def taken(call: Call, turn: Turn) -> Taken:
    """The call of this turn."""
    response = call.response if turn.answer is None else turn.answer
    request, answer = _item(call.request), _item(response)
    header = request.first(Tag.REQUEST_HEADER, Kind.STRUCTURE) if request else None
    option = header.first(Tag.BATCH_ERROR_CONTINUATION_OPTION, Kind.ENUMERATION) if header else None
    asks = request.every(Tag.BATCH_ITEM, Kind.STRUCTURE) if request else []
    answers = answer.every(Tag.BATCH_ITEM, Kind.STRUCTURE) if answer and not call.refused else []
    count = min(len(asks), len(answers))
    fills = dict(turn.fills)
    places = [place for place in turn.places if 1 <= place <= count] or range(1, count + 1)
    return Taken(call, None if response is None else message.time_stamp(response), option.value if option else None,
                 len(asks), [_step(asks[place - 1], answers[place - 1], fills.get(place)) for place in places],
                 call.end is not None)


def _step(ask: Item, answer: Item, fill: Optional[Item]) -> Step:
    asked = ask.first(Tag.REQUEST_PAYLOAD, Kind.STRUCTURE)
    told = answer.first(Tag.RESPONSE_PAYLOAD, Kind.STRUCTURE)
    status = _number(answer, Tag.RESULT_STATUS)
    if status == Status.UNDONE and not (told and told.children()):
        told = fill
    return Step(_number(ask, Tag.OPERATION), asked, status, _number(answer, Tag.RESULT_REASON), told)


def _item(spelled: Optional[bytes]) -> Optional[Item]:
    """The item that a message is; None where it is none."""
    try:
        return None if spelled is None else ttlv.read_item(spelled)
    except ttlv.NotTtlv:
        return None


def _number(item: Item, tag: Tag) -> Optional[int]:
    found = item.first(tag, Kind.ENUMERATION)
    return found.value if found else None


def _identifier(payload: Optional[Item]) -> Optional[str]:
    found = payload.first(Tag.UNIQUE_IDENTIFIER, Kind.TEXT) if payload else None
    return found.value if found else None
