"""PROFILE, Objects, States, Operations and Attributes: objects, and what attributes say."""
from __future__ import annotations
from typing import Any, Iterator, Sequence
from ttlv import (ACTIVATE, AES, DESTROY, GET, GET_ATTRIBUTES, REVOKE, SECRET_DATA, SINGLE, SYMMETRIC_KEY, TYPES,
                  Item, Outside, Tag, first_of)

PRE_ACTIVE, ACTIVE, DEACTIVATED, COMPROMISED, DESTROYED, DESTROYED_COMPROMISED = STATES = range(1, 7)
MUST, MAY, NOT = WORDS = "+", "?", "-"
# A Revoke with the code Key Compromise or CA Compromise has a row of its own.
REVOKE_COMPROMISED = -REVOKE
# The table of operations: what is possible in each state, from Pre-Active on.
ACTS = GET, GET_ATTRIBUTES, ACTIVATE, REVOKE_COMPROMISED, REVOKE, DESTROY
TABLE = {(act, state): word for act, words in zip(ACTS, (
    "++++--", "++++??", "+-----", "+++???", "-+?---", "+?++--")) for state, word in zip(STATES, words)}
# The dates that a success sets, and in which states.
SETS: dict[int, dict[int, Sequence[int]]] = {
    ACTIVATE: {Tag.ACTIVATION: STATES}, REVOKE: {Tag.DEACTIVATION: (ACTIVE,)},
    REVOKE_COMPROMISED: {Tag.COMPROMISE: (PRE_ACTIVE, ACTIVE, DEACTIVATED, DESTROYED)},
    DESTROY: {Tag.DESTROY: STATES, Tag.DEACTIVATION: (ACTIVE,)}}
NOT_FOR_CLIENTS = (Tag.STATE, Tag.INITIAL, Tag.DESTROY, Tag.COMPROMISE, Tag.IDENTIFIER)
# What may be shown or asked for of an object that has none.
UNSURE = (Tag.ALGORITHM, Tag.LENGTH, Tag.MASK, Tag.INITIAL)
# Attributes by their tags: one number of each single kind, and of Name the set of all names.
Attributes = dict[int, Any]

def name_of(item: Item) -> tuple[str, int] | None:
    """The value and the type of a Name, or None where it says none."""
    value, kind = item.get(Tag.NAME_VALUE), item.get(Tag.NAME_TYPE) if item.first(Tag.NAME_TYPE) else 1
    return None if value is None or kind is None else (value, kind)

def read_attributes(given: Sequence[Item]) -> Attributes:
    """What attributes say: all names, and the first of each single kind."""
    first = {it.tag: it.value for it in reversed(given) if it.tag in SINGLE and it.type == TYPES[it.tag]}
    return {**first, Tag.NAME: frozenset(filter(None, (name_of(it) for it in given if it.tag == Tag.NAME)))}

def disagree(has: Attributes, shown: Attributes) -> bool:
    """Whether attributes that are shown, or asked for, aren't those of an object that has others."""
    single = {tag: it for tag, it in shown.items() if tag != Tag.NAME}
    is_other = any(has.get(tag, it if tag in UNSURE else None) != it for tag, it in single.items())
    return is_other or not shown[Tag.NAME] <= has[Tag.NAME]

def kinds_of_attributes(item: Item, is_client: bool = False, is_filter: bool = False) -> Iterator[Outside]:
    """The kinds of outside that hold in Attributes: a client's, a Locate's filters, or those of a server."""
    for it in item.every(Tag.NAME, *SINGLE, *NOT_FOR_CLIENTS):
        is_second = it is not item.first(it.tag) and not is_filter
        is_wrong = not name_of(it) if it.tag == Tag.NAME else it.type != TYPES[it.tag] or is_second
        if is_wrong and it.tag in (Tag.NAME, *SINGLE) or is_client and it.tag in NOT_FOR_CLIENTS:
            yield Outside.Attribute
    if item.get(Tag.OBJECT_TYPE) not in (None, SYMMETRIC_KEY, SECRET_DATA):
        yield Outside.ObjectType

class Object:
    """An object: its attributes but for its state; its key bytes, in a list that is empty while nobody has shown
    them: what is learned stays learned; and whose it is."""
    def __init__(self, has: Attributes, secret: list[bytes], owner: str | None) -> None:
        self.has, self.secret, self.owner = has, secret, owner
    def at(self, now: int) -> Attributes:
        """All its attributes at a moment, with its state, which follows from the dates alone."""
        is_destroyed, is_compromised = Tag.DESTROY in self.has, Tag.COMPROMISE in self.has
        state = first_of((
            (is_destroyed and is_compromised, DESTROYED_COMPROMISED), (is_destroyed, DESTROYED),
            (is_compromised, COMPROMISED), (self.has.get(Tag.ACTIVATION, now + 1) > now, PRE_ACTIVE),
            (self.has.get(Tag.DEACTIVATION, now + 1) <= now, DEACTIVATED)))
        return {**self.has, Tag.STATE: state or ACTIVE}
    def admits(self, secret: list[bytes]) -> bool:
        """Whether it may have these key bytes; none asks whether it may have any at all."""
        kind, algorithm, length = map(self.has.get, (Tag.OBJECT_TYPE, Tag.ALGORITHM, Tag.LENGTH))
        if (kind, algorithm) != (SYMMETRIC_KEY, AES) or length is None:
            return True
        return length > 0 and length % 8 == 0 and all(8 * len(it) == length for it in secret)
    def left_by(self, act: int, now: int) -> Object:
        """What the success of an operation leaves of it."""
        dates = [tag for tag, states in SETS.get(act, {}).items() if self.at(now)[Tag.STATE] in states]
        return Object({**self.has, **dict.fromkeys(dates, now)}, self.secret, self.owner)

# An identifier is a text, None where there is none, or BLANK where it isn't known. In an inventory BLANK is what is
# aside, in the place of an object, and in the place of an identifier each that the inventory hasn't.
BLANK: Any = object()
Identifier = Any
