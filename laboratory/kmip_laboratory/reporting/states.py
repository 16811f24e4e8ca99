"""The table of states: what is possible in which state (docs/PROFILE.md#operations)."""

from __future__ import annotations

from enum import Enum, IntEnum
from typing import Optional

from ..driving.numbers import COMPROMISES
from ..operations import Operation
from ..tags import Tag
from ..ttlv import Item, Kind


class Standing(IntEnum):
    """How an object stands as an item is about it: in one of the six states, by the standard's numbers, or not there at
    all, or so that it is not known."""

    ABSENT = 0
    PRE_ACTIVE = 1
    ACTIVE = 2
    DEACTIVATED = 3
    COMPROMISED = 4
    DESTROYED = 5
    DESTROYED_COMPROMISED = 6
    UNKNOWN = 7


class Possible(Enum):
    """Whether success is possible: `must` also says that a refusal for the state is unfounded."""

    MUST = "must"
    MAY = "may"
    NOT = "not"


STATES = tuple(Standing)[1:7]
GONE = (Standing.DESTROYED, Standing.DESTROYED_COMPROMISED)
OPERATIONS: dict[int, str] = {
    Operation.GET: "Get", Operation.GET_ATTRIBUTES: "Get Attributes", Operation.ACTIVATE: "Activate",
    Operation.DESTROY: "Destroy"}
COMPROMISE, OTHER_CODE = "Revoke, code 2 or 3", "Revoke, other code"
_BY_STATE = {
    "Get": "must must must must not not",
    "Get Attributes": "must must must must may may",
    "Activate": "must not not not not not",
    COMPROMISE: "must must must may may may",
    OTHER_CODE: "not must may not not not",
    "Destroy": "must may must must not not",
}
TABLE: dict[str, dict[Standing, Possible]] = {
    row: dict(zip(STATES, map(Possible, words.split()))) for row, words in _BY_STATE.items()}


def row_of(operation: Optional[int], asked: Optional[Item]) -> Optional[str]:
    """The row of the table for an item with this Request Payload; None where its operation has none."""
    if operation == Operation.REVOKE:
        return COMPROMISE if revocation_code(asked) in COMPROMISES else OTHER_CODE
    return OPERATIONS.get(operation or 0)


def revocation_code(asked: Optional[Item]) -> Optional[int]:
    """The Revocation Reason Code of a Request Payload."""
    reason = asked.first(Tag.REVOCATION_REASON, Kind.STRUCTURE) if asked else None
    code = reason.first(Tag.REVOCATION_REASON_CODE, Kind.ENUMERATION) if reason else None
    return code.value if code else None


def possible(row: str, standing: Standing) -> Optional[Possible]:
    """What the table says; None where the object has no state that is known."""
    return TABLE[row].get(standing)
