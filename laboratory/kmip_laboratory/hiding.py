"""What of a message may be seen: the one list, by tag and type, of what is known to be judged or harmless. All other
texts, strings of bytes, Big Integers and Long Integers are hidden, since keys and passwords may stand in them: those of
fields that nobody knows too. `blind` replaces what is hidden, and `list` and the page leave it out."""

from __future__ import annotations

from enum import Enum

from .tag_names import TAGS_BY_NAME
from .tags import FileTag, Tag
from .ttlv import Kind


class Sort(Enum):
    """What a value is to whoever hides."""

    HARMLESS = "harmless value"
    NAME = "name"
    IDENTIFIER = "identifier"
    CLIENT = "client"
    ITEM_ID = "batch item ID"
    TEXT = "text"
    SECRET = "secret"


def _tags(names: str) -> frozenset[int]:
    return frozenset(TAGS_BY_NAME[name] for name in " ".join(names.split()).split("; "))


NAMES = _tags("Name Value")
IDENTIFIERS = _tags("Unique Identifier; Private Key Unique Identifier; Public Key Unique Identifier; Linked Object "
                    "Identifier; Replaced Unique Identifier")
# Texts for people, of vendors and of applications. They are hidden, since anything may stand in them, unless they are
# asked for.
TEXTS = _tags("""
Application Data; Application Namespace; Attribute Name; Client Correlation Value; Comment; Contact Information;
Description; Extension Description; Extension Name; Log Message; Object Group; Operation Policy Name; Product Name;
Profile Name; Result Message; Revocation Message; Server Correlation Value; Server Name; Server Version; Vendor
Identification; Build Level; Cluster Info; Server URI
""".strip())
# Whatever stands in these is hidden: what would be a name or an identifier elsewhere is none there.
CONTAINERS = _tags("Key Material; Credential Value; Ticket; Derivation Parameters; Nonce")
SORT_OF_TEXT = {FileTag.CLIENT.value: Sort.CLIENT, **{tag: Sort.NAME for tag in NAMES},
                **{tag: Sort.IDENTIFIER for tag in IDENTIFIERS}, **{tag: Sort.TEXT for tag in TEXTS}}
SHOWN = frozenset({Sort.HARMLESS, Sort.NAME, Sort.IDENTIFIER, Sort.CLIENT, Sort.ITEM_ID})


def sort_of(tag: int, kind: Kind, value: object, contained: bool) -> Sort:
    """What the value of an item with this tag and type is; `contained` where it stands in one of the containers."""
    if kind is Kind.TEXT:
        return Sort.SECRET if contained else _sort_of_text(tag, value)
    if kind is Kind.BYTES:
        return Sort.ITEM_ID if tag == Tag.UNIQUE_BATCH_ITEM_ID and not contained else Sort.SECRET
    # All others hold numbers of four bytes, truth, moments and structures.
    return Sort.SECRET if kind is Kind.BIG_INTEGER or kind is Kind.LONG_INTEGER else Sort.HARMLESS


def _sort_of_text(tag: int, value: object) -> Sort:
    if tag == Tag.ATTRIBUTE_NAME and value in TAGS_BY_NAME:
        return Sort.HARMLESS
    return SORT_OF_TEXT.get(tag, Sort.SECRET)


def is_shown(tag: int, kind: Kind, value: object, contained: bool) -> bool:
    """Whether such a value may be seen without being asked for."""
    return sort_of(tag, kind, value, contained) in SHOWN
