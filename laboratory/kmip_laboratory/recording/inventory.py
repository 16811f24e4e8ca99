"""What a live server says that it holds, as entries of a declaration. Nothing is made up: an attribute that it does not
tell is left out, and so is an object of which it tells what no entry can say; both are said."""

from __future__ import annotations

import ssl
import time
from typing import NamedTuple, Optional

from .. import ttlv
from ..address import Address
from ..operations import Operation
from ..trouble import Trouble, say
from ..ttlv import Item, Kind
from ..versions import OF_OLD, Version
from .declaration import Entry
from .questions import Failed, Questions

ATTRIBUTES = 0x420125
KEY_BLOCK = 0x420040
KEY_FORMAT_TYPE = 0x420042
KEY_MATERIAL = 0x420043
KEY_VALUE = 0x420045
LOCATED_ITEMS = 0x4200D5
OBJECT_TYPE = 0x420057
STATE = 0x42008D
UNIQUE_IDENTIFIER = 0x420094

# Who asks with the certificate of --server-cert.
ASKED_PLAINLY = "the certificate of --server-cert"

SYMMETRIC_KEY = 2
OBJECT_TAGS = {SYMMETRIC_KEY: 0x42008F, 7: 0x420085}
PLAIN_FORMATS = (1, 2)


class Attribute(NamedTuple):
    """An attribute that an entry may have."""

    name: str
    tag: int
    kind: Kind


NAME = Attribute("Name", 0x420053, Kind.STRUCTURE)
INITIAL_DATE = Attribute("Initial Date", 0x420039, Kind.DATE_TIME)
ACTIVATION_DATE = Attribute("Activation Date", 0x420001, Kind.DATE_TIME)
DEACTIVATION_DATE = Attribute("Deactivation Date", 0x42002F, Kind.DATE_TIME)
DESTROY_DATE = Attribute("Destroy Date", 0x420033, Kind.DATE_TIME)
COMPROMISE_DATE = Attribute("Compromise Date", 0x420020, Kind.DATE_TIME)
OF_KEYS = [
    Attribute("Cryptographic Algorithm", 0x420028, Kind.ENUMERATION),
    Attribute("Cryptographic Length", 0x42002A, Kind.INTEGER),
    Attribute("Cryptographic Usage Mask", 0x42002C, Kind.INTEGER),
]
SINGLE = [*OF_KEYS, INITIAL_DATE, ACTIVATION_DATE, DEACTIVATION_DATE, DESTROY_DATE, COMPROMISE_DATE]
STATES = ["no State", "Pre-Active", "Active", "Deactivated", "Compromised", "Destroyed", "Destroyed Compromised"]


# Of each object by its identifier what its entry has; None where it is left out.
Held = dict[str, Optional[bytes]]


async def held(server: Address, context: ssl.SSLContext, version: Version, with_bytes: bool) -> Held:
    """The objects that the server lists to whom it is shown this certificate."""
    async with Questions(server, context, version) as questions:
        return {identifier: await _entry(questions, identifier, with_bytes)
                for identifier in await _identifiers(questions, version)}


def entries(by_client: dict[str, Held], with_bytes: bool, owners: dict[str, str],
            sets_aside: bool = False) -> tuple[list[Entry], list[str]]:
    """The entry of each object that has one by what somebody was told, and no other by what another was told; and the
    identifiers of the others, which may be set aside. Where several asked and one client alone is told of an object, it
    is that client's, if `owners` says nothing else."""
    found, left, by_object = [], [], _by_object(by_client)
    for identifier, told in by_object.items():
        if len(set(told.values())) > 1:
            say(f"object {identifier}: left out, for {' and '.join(told)} are told different things of it")
            left.append(identifier)
        elif told:
            owner = owners.get(identifier) or _owner(identifier, list(told), by_client)
            found.append(Entry(next(iter(told.values())), owner))
        else:
            left.append(identifier)
    if left:
        say(f"{len(left)} objects are left out: " + (
            "they are set aside, and nothing about them is judged" if sets_aside else
            "where a recorded call succeeds on one of them, the auditor will say that there is no such object"))
    if found and not with_bytes:
        say("the bytes of keys are left undeclared: the first Get of each will show them (--bytes asks for them)")
    return found, left


def _owner(identifier: str, told: list[str], by_client: dict[str, Held]) -> Optional[str]:
    """Whose an object is of which these are told."""
    if len(told) == len(by_client):
        return None
    if len(told) == 1 and told[0] != ASKED_PLAINLY:
        say(f"object {identifier}: of those that asked, {told[0]} alone is told of it, and is declared as its owner")
        return told[0]
    say(f"object {identifier}: of those that asked, {' and '.join(told)} alone are told of it; no owner is declared")
    return None


def _by_object(by_client: dict[str, Held]) -> dict[str, dict[str, bytes]]:
    """Of each object the entries, by the client that was told so."""
    found: dict[str, dict[str, bytes]] = {}
    for client, objects in by_client.items():
        for identifier, entry in objects.items():
            told = found.setdefault(identifier, {})
            if entry is not None:
                told[client] = entry
    return found


async def _identifiers(questions: Questions, version: Version) -> list[str]:
    try:
        payload = await questions.ask(Operation.LOCATE, *([] if version in OF_OLD else [ttlv.structure(ATTRIBUTES)]))
    except Failed as failed:
        raise Trouble(f"the server refused to list its objects: {failed}; servers of older versions need --version, "
                      "as 2.0 or 1.2") from None
    listed = [item.value for item in payload.every(UNIQUE_IDENTIFIER, Kind.TEXT)]
    located = payload.first(LOCATED_ITEMS, Kind.INTEGER)
    if located and located.value > len(listed):
        say(f"the server found {located.value} objects, and lists {len(listed)}: the others are left out")
    return listed


async def _entry(questions: Questions, identifier: str, with_bytes: bool) -> Optional[bytes]:
    named = ttlv.text(UNIQUE_IDENTIFIER, identifier)
    try:
        payload = await questions.ask(Operation.GET_ATTRIBUTES, named)
    except Failed as failed:
        say(f"object {identifier}: left out, for its attributes were refused: {failed}")
        return None
    told = payload.first(ATTRIBUTES, Kind.STRUCTURE) or payload
    object_type = told.first(OBJECT_TYPE, Kind.ENUMERATION)
    if object_type is None or object_type.value not in OBJECT_TAGS:
        say(f"object {identifier}: left out, for it is neither a Symmetric Key nor Secret Data, or is not said to be")
        return None
    conflict = _conflict(told, int(time.time()) if questions.stamp is None else questions.stamp)
    if conflict:
        say(f"object {identifier}: left out, for {conflict}")
        return None
    _say_what_is_missing(identifier, object_type.value, told)
    parts = [named, ttlv.enumeration(OBJECT_TYPE, object_type.value), ttlv.structure(ATTRIBUTES, *_judged(told))]
    if with_bytes and told.first(DESTROY_DATE.tag, DESTROY_DATE.kind) is None:
        parts += await _key_material(questions, identifier, object_type.value)
    return b"".join(parts)


def _judged(told: Item) -> list[bytes]:
    """What an entry may have of the attributes that were told."""
    single = [told.first(attribute.tag, attribute.kind) for attribute in SINGLE]
    return [ttlv.spell(item) for item in told.every(NAME.tag, NAME.kind) + [item for item in single if item]]


def _say_what_is_missing(identifier: str, object_type: int, told: Item) -> None:
    wanted = [INITIAL_DATE] + (OF_KEYS if object_type == SYMMETRIC_KEY else [])
    missing = [attribute.name for attribute in wanted if told.first(attribute.tag, attribute.kind) is None]
    if missing:
        say(f"object {identifier}: the server does not tell its {', '.join(missing)}: left out")


def _conflict(told: Item, now: int) -> Optional[str]:
    """Why no entry says what was told of the object's state; None where one does. An entry has dates alone, and the
    state follows from them."""
    state = told.first(STATE, Kind.ENUMERATION)
    if state is None or not isinstance(state.value, int):
        return "the server does not say in which state it is"
    by_dates = _state(told, now)
    if state.value == by_dates:
        return None
    said = STATES[state.value] if state.value < len(STATES) else f"in state {state.value}"
    return (f"the server says that it is {said}, and tells no date that makes it so, but what makes it "
            f"{STATES[by_dates]}")


def _state(told: Item, now: int) -> int:
    """The number of the state that the dates told make at this moment."""
    def date(attribute: Attribute) -> Optional[int]:
        item = told.first(attribute.tag, attribute.kind)
        return item.value if item and isinstance(item.value, int) else None

    activation, deactivation = date(ACTIVATION_DATE), date(DEACTIVATION_DATE)
    if date(DESTROY_DATE) is not None:
        return 5 if date(COMPROMISE_DATE) is None else 6
    if date(COMPROMISE_DATE) is not None:
        return 4
    if activation is None or activation > now:
        return 1
    return 3 if deactivation is not None and deactivation <= now else 2


async def _key_material(questions: Questions, identifier: str, object_type: int) -> list[bytes]:
    """The item of the object's bytes; nothing where the server does not show them plainly."""
    try:
        payload = await questions.ask(Operation.GET, ttlv.text(UNIQUE_IDENTIFIER, identifier))
    except Failed as failed:
        say(f"object {identifier}: its bytes are left undeclared, for they were refused: {failed}")
        return []
    item: Optional[Item] = payload
    for tag in (OBJECT_TAGS[object_type], KEY_BLOCK):
        item = item.first(tag, Kind.STRUCTURE) if item else None
    form = item.first(KEY_FORMAT_TYPE, Kind.ENUMERATION) if item else None
    value = item.first(KEY_VALUE, Kind.STRUCTURE) if item else None
    material = value.first(KEY_MATERIAL, Kind.BYTES) if value else None
    if material is None or form is None or form.value not in PLAIN_FORMATS:
        say(f"object {identifier}: its bytes are left undeclared, for they came neither as Raw nor as Opaque")
        return []
    return [ttlv.spell(material)]
