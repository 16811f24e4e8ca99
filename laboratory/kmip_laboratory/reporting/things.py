"""An object as messages and entries make it, and what each operation leaves of it (docs/PROFILE.md#operations)."""

from __future__ import annotations

from dataclasses import replace
from typing import Optional

from ..calls import Name, names
from ..driving import messages
from ..driving.store import Thing
from ..tags import Tag
from ..ttlv import Item, Kind
from .states import COMPROMISE, OTHER_CODE, Possible, Standing, possible, row_of
from .steps import Step

# The attributes of an object that are numbers, by their places in it.
NUMBERS = {Tag.CRYPTOGRAPHIC_ALGORITHM: Kind.ENUMERATION, Tag.CRYPTOGRAPHIC_LENGTH: Kind.INTEGER,
           Tag.CRYPTOGRAPHIC_USAGE_MASK: Kind.INTEGER, Tag.INITIAL_DATE: Kind.DATE_TIME,
           Tag.ACTIVATION_DATE: Kind.DATE_TIME, Tag.DEACTIVATION_DATE: Kind.DATE_TIME,
           Tag.DESTROY_DATE: Kind.DATE_TIME, Tag.COMPROMISE_DATE: Kind.DATE_TIME}
OBJECTS = (Tag.SYMMETRIC_KEY, Tag.SECRET_DATA)


def read_thing(identifier: str, told: Item) -> Thing:
    """The object that an entry of a declaration tells, or the payload of a Create or Register asks for: its attributes
    stand in its Attributes and in its Key Block."""
    object_type = told.first(Tag.OBJECT_TYPE, Kind.ENUMERATION)
    found: dict[int, int] = {}
    for part in (told.first(Tag.ATTRIBUTES, Kind.STRUCTURE), _key_block(told)):
        for tag, kind in NUMBERS.items():
            number = part.first(tag, kind) if part else None
            if number:
                found.setdefault(tag, number.value)
    return Thing(identifier, object_type.value if object_type else 0, None,
                 tuple(messages.Name(*name) for name in sorted(names(told))), *map(found.get, NUMBERS))


def named(thing: Optional[Thing]) -> list[Name]:
    """The names of an object that is known."""
    return [(name.value, name.kind) for name in thing.names] if thing else []


def born(step: Step, identifier: str, now: int) -> Optional[Thing]:
    """What a Create or Register leaves."""
    return None if step.asked is None else replace(read_thing(identifier, step.asked), initial=now)


def left(thing: Optional[Thing], step: Step, standing: Standing, now: Optional[int]) -> Optional[Thing]:
    """What a success leaves of the object that it is about; None where that is not known, as behind one that the table
    of states excludes."""
    row = row_of(step.operation, step.asked)
    if thing is None or now is None or row is None or possible(row, standing) in (None, Possible.NOT):
        return None
    if row == "Activate":
        return replace(thing, activation=now)
    if row == COMPROMISE and thing.compromised is None:
        return replace(thing, compromised=now)
    if row == OTHER_CODE and standing is Standing.ACTIVE:
        return replace(thing, deactivation=now)
    if row == "Destroy":
        return replace(thing, destroyed=now, deactivation=now if standing is Standing.ACTIVE else thing.deactivation)
    return thing


def has(thing: Thing, tag: Tag) -> bool:
    """Whether an object has a judged attribute; all have an Object Type and a State."""
    if tag in (Tag.OBJECT_TYPE, Tag.STATE):
        return True
    if tag == Tag.NAME:
        return bool(thing.names)
    return _numbers(thing)[list(NUMBERS).index(tag)] is not None


def _numbers(thing: Thing) -> tuple[Optional[int], ...]:
    """Its attributes that are numbers, by their places."""
    return (thing.algorithm, thing.length, thing.mask, thing.initial, thing.activation, thing.deactivation,
            thing.destroyed, thing.compromised)


def _key_block(told: Item) -> Optional[Item]:
    key = next((child for child in told.children() if child.tag in OBJECTS), None)
    return key.first(Tag.KEY_BLOCK, Kind.STRUCTURE) if key else None
