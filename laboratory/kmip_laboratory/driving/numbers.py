"""The numbers of KMIP that the driver and its key server speak (docs/FORMATS.md)."""

from __future__ import annotations

from enum import IntEnum

from ..operations import Operation
from ..tags import Tag

__all__ = ["AES", "ATTRIBUTE_NAMES", "ATTRIBUTE_TAGS", "COMPROMISES", "OPAQUE", "PASSWORD", "RAW", "ObjectType",
           "Operation", "Option", "Reason", "State", "Status", "Tag"]


class Status(IntEnum):
    """Result Status."""

    SUCCESS = 0
    FAILED = 1
    PENDING = 2
    UNDONE = 3


class Reason(IntEnum):
    """The Result Reasons that the key server gives."""

    ITEM_NOT_FOUND = 0x01
    INVALID_MESSAGE = 0x04
    OPERATION_NOT_SUPPORTED = 0x05
    INVALID_FIELD = 0x07
    PERMISSION_DENIED = 0x0C
    NAME_NOT_UNIQUE = 0x35
    WRONG_STATE = 0x43
    GENERAL_FAILURE = 0x100


class Option(IntEnum):
    """Batch Error Continuation Option."""

    CONTINUE = 1
    STOP = 2
    UNDO = 3


class State(IntEnum):
    """States of an object."""

    PRE_ACTIVE = 1
    ACTIVE = 2
    DEACTIVATED = 3
    COMPROMISED = 4
    DESTROYED = 5
    DESTROYED_COMPROMISED = 6


class ObjectType(IntEnum):
    """The types of objects that are judged."""

    SYMMETRIC_KEY = 2
    SECRET_DATA = 7


AES = 3
RAW, OPAQUE = 1, 2
PASSWORD = 1
COMPROMISES = (2, 3)

# Names of attributes, as versions below 2.0 spell them.
ATTRIBUTE_NAMES: dict[Tag, str] = {
    tag: tag.name.replace("_", " ").title()
    for tag in (Tag.NAME, Tag.OBJECT_TYPE, Tag.CRYPTOGRAPHIC_ALGORITHM, Tag.CRYPTOGRAPHIC_LENGTH,
                Tag.CRYPTOGRAPHIC_USAGE_MASK, Tag.STATE, Tag.INITIAL_DATE, Tag.ACTIVATION_DATE,
                Tag.DEACTIVATION_DATE, Tag.DESTROY_DATE, Tag.COMPROMISE_DATE, Tag.LAST_CHANGE_DATE)
}
ATTRIBUTE_TAGS: dict[str, Tag] = {name: tag for tag, name in ATTRIBUTE_NAMES.items()}
