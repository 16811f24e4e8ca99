"""What requests and responses share on the wire: versions, attributes and objects, in 1.x and 2.x."""

from __future__ import annotations

from functools import lru_cache
from typing import Callable, Iterable, Optional

from .. import ttlv
from ..ttlv import Item, Kind
from .messages import Attribute, Material, Name, Version
from .numbers import ATTRIBUTE_NAMES, ATTRIBUTE_TAGS, OPAQUE, PASSWORD, RAW, ObjectType, Tag

VERSIONS = ("1.0", "1.1", "1.2", "1.3", "1.4", "2.0", "2.1")
FIRST_WITH_ATTRIBUTES = (2, 0)

# How the number of each attribute is spelled.
SPELLED: dict[int, Callable[[int, int], bytes]] = {
    Tag.OBJECT_TYPE: ttlv.enumeration, Tag.CRYPTOGRAPHIC_ALGORITHM: ttlv.enumeration, Tag.STATE: ttlv.enumeration,
    Tag.CRYPTOGRAPHIC_LENGTH: ttlv.integer, Tag.CRYPTOGRAPHIC_USAGE_MASK: ttlv.integer,
    Tag.INITIAL_DATE: ttlv.date_time, Tag.ACTIVATION_DATE: ttlv.date_time, Tag.DEACTIVATION_DATE: ttlv.date_time,
    Tag.DESTROY_DATE: ttlv.date_time, Tag.COMPROMISE_DATE: ttlv.date_time, Tag.LAST_CHANGE_DATE: ttlv.date_time,
}
OBJECT_TAGS = {ObjectType.SYMMETRIC_KEY: Tag.SYMMETRIC_KEY, ObjectType.SECRET_DATA: Tag.SECRET_DATA}


class NotUnderstood(ValueError):
    """A message that is not of the part of KMIP that is spoken here."""


def read_version(words: str) -> Version:
    """The version that these words are."""
    if words not in VERSIONS:
        raise ValueError(f"{words!r} is no version that is spoken; these are: {', '.join(VERSIONS)}")
    major, _, minor = words.partition(".")
    return int(major), int(minor)


@lru_cache(maxsize=16)
def version_item(version: Version) -> bytes:
    """A Protocol Version."""
    return ttlv.structure(Tag.PROTOCOL_VERSION, ttlv.integer(Tag.PROTOCOL_VERSION_MAJOR, version[0]),
                          ttlv.integer(Tag.PROTOCOL_VERSION_MINOR, version[1]))


def version_of(header: Item) -> Version:
    """The Protocol Version of a header."""
    version = need(header.first(Tag.PROTOCOL_VERSION, Kind.STRUCTURE))
    return (need(version.first(Tag.PROTOCOL_VERSION_MAJOR, Kind.INTEGER)).value,
            need(version.first(Tag.PROTOCOL_VERSION_MINOR, Kind.INTEGER)).value)


def need(item: Optional[Item]) -> Item:
    """An item that has to be there."""
    if item is None:
        raise NotUnderstood("a field is missing")
    return item


def identifiers_of(payload: Item) -> list[str]:
    """The Unique Identifiers in a payload."""
    return [item.value for item in payload.every(Tag.UNIQUE_IDENTIFIER, Kind.TEXT)]


def attribute(version: Version, given: Attribute) -> bytes:
    """One attribute, as this version says it."""
    if version >= FIRST_WITH_ATTRIBUTES:
        return _value(given.tag, given)
    name = ttlv.text(Tag.ATTRIBUTE_NAME, ATTRIBUTE_NAMES[given.tag])
    return ttlv.structure(Tag.ATTRIBUTE, name, _value(Tag.ATTRIBUTE_VALUE, given))


def _value(tag: int, given: Attribute) -> bytes:
    if isinstance(given.value, Name):
        return ttlv.structure(tag, ttlv.text(Tag.NAME_VALUE, given.value.value),
                              ttlv.enumeration(Tag.NAME_TYPE, given.value.kind))
    return SPELLED[given.tag](tag, given.value)


def attributes(version: Version, given: Iterable[Attribute], always: bool = False) -> list[bytes]:
    """The item, or items, that hold these attributes in a payload; none for none, unless `always`."""
    made = [attribute(version, each) for each in given]
    if version >= FIRST_WITH_ATTRIBUTES:
        return [ttlv.structure(Tag.ATTRIBUTES, *made)] if made or always else []
    return made


def template(version: Version, given: Iterable[Attribute]) -> bytes:
    """The attributes of a new object."""
    made = [attribute(version, each) for each in given]
    tag = Tag.ATTRIBUTES if version >= FIRST_WITH_ATTRIBUTES else Tag.TEMPLATE_ATTRIBUTE
    return ttlv.structure(tag, *made)


def read_attributes(version: Version, payload: Item) -> list[Attribute]:
    """The attributes that a payload holds; such that are not spoken here are read over."""
    if version >= FIRST_WITH_ATTRIBUTES:
        holder = payload.first(Tag.ATTRIBUTES, Kind.STRUCTURE)
        pairs = [(child.tag, child) for child in holder.children()] if holder else []
    else:
        holder = payload.first(Tag.TEMPLATE_ATTRIBUTE, Kind.STRUCTURE) or payload
        pairs = [pair for child in holder.every(Tag.ATTRIBUTE, Kind.STRUCTURE) for pair in _named(child)]
    return [Attribute(Tag(tag), _read_value(item)) for tag, item in pairs if tag == Tag.NAME or tag in SPELLED]


def _named(item: Item) -> list[tuple[int, Item]]:
    """Of an Attribute of 1.x the tag that its name stands for, and its value."""
    name = need(item.first(Tag.ATTRIBUTE_NAME, Kind.TEXT)).value
    values = [child for child in item.children() if child.tag == Tag.ATTRIBUTE_VALUE]
    return [(ATTRIBUTE_TAGS[name], values[0])] if name in ATTRIBUTE_TAGS and values else []


def _read_value(item: Item) -> int | Name:
    if item.kind != Kind.STRUCTURE:
        if not isinstance(item.value, int):
            raise NotUnderstood("an attribute of another kind")
        return item.value
    kind = item.first(Tag.NAME_TYPE, Kind.ENUMERATION)
    return Name(need(item.first(Tag.NAME_VALUE, Kind.TEXT)).value, kind.value if kind else 1)


def material(given: Material) -> bytes:
    """A Symmetric Key or Secret Data with its Key Block."""
    is_key = given.object_type == ObjectType.SYMMETRIC_KEY
    parts = [ttlv.enumeration(Tag.KEY_FORMAT_TYPE, RAW if is_key else OPAQUE),
             ttlv.structure(Tag.KEY_VALUE, ttlv.byte_string(Tag.KEY_MATERIAL, given.value))]
    if given.algorithm is not None:
        parts.append(ttlv.enumeration(Tag.CRYPTOGRAPHIC_ALGORITHM, given.algorithm))
    if given.length is not None:
        parts.append(ttlv.integer(Tag.CRYPTOGRAPHIC_LENGTH, given.length))
    block = ttlv.structure(Tag.KEY_BLOCK, *parts)
    ahead = [] if is_key else [ttlv.enumeration(Tag.SECRET_DATA_TYPE, PASSWORD)]
    return ttlv.structure(OBJECT_TAGS[ObjectType(given.object_type)], *ahead, block)


def read_material(payload: Item) -> Optional[Material]:
    """The object in a payload, where there is one."""
    for object_type, tag in OBJECT_TAGS.items():
        found = payload.first(tag, Kind.STRUCTURE)
        if found:
            return _read_block(object_type, need(found.first(Tag.KEY_BLOCK, Kind.STRUCTURE)))
    return None


def _read_block(object_type: ObjectType, block: Item) -> Material:
    value = need(need(block.first(Tag.KEY_VALUE, Kind.STRUCTURE)).first(Tag.KEY_MATERIAL, Kind.BYTES))
    algorithm = block.first(Tag.CRYPTOGRAPHIC_ALGORITHM, Kind.ENUMERATION)
    length = block.first(Tag.CRYPTOGRAPHIC_LENGTH, Kind.INTEGER)
    return Material(object_type, value.value, algorithm.value if algorithm else None, length.value if length else None)
