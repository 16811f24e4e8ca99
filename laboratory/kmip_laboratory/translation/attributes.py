"""Attributes of the older form, a name with an index and a value, as items of the newer form, a tag with a value."""

from __future__ import annotations

from typing import Counter

from .. import ttlv
from ..slices import Slice, slices_of, structure, with_tag
from ..tag_names import TAGS_BY_NAME
from ..tags import Tag
from ..ttlv import Kind, front

NAMES = frozenset("""
Unique Identifier; Name; Object Type; Cryptographic Algorithm; Cryptographic Length; Cryptographic Parameters;
Cryptographic Domain Parameters; Certificate Type; Certificate Identifier; Certificate Subject; Certificate Issuer;
Digest; Operation Policy Name; Cryptographic Usage Mask; Lease Time; Usage Limits; State; Initial Date; Activation Date;
Process Start Date; Protect Stop Date; Deactivation Date; Destroy Date; Compromise Occurrence Date; Compromise Date;
Revocation Reason; Archive Date; Object Group; Link; Application Specific Information; Contact Information;
Last Change Date; Certificate Length; X.509 Certificate Identifier; X.509 Certificate Subject;
X.509 Certificate Issuer; Digital Signature Algorithm; Fresh; Alternative Name; Key Value Present; Key Value Location;
Original Creation Date; Random Number Generator; PKCS#12 Friendly Name; Description; Comment; Sensitive;
Always Sensitive; Extractable; Never Extractable
""".replace("\n", " ").strip().split("; "))
# Who made an attribute of his own, a client or the server, was the beginning of its name; now it is its vendor (KMIP
# 2.1, Vendor Attributes). Of other names it is not known who made them.
VENDOR_PREFIXES = ("x-", "y-")
UNKNOWN_VENDOR = "unknown"

ATTRIBUTE = front(Tag.ATTRIBUTE, Kind.STRUCTURE)
ATTRIBUTE_INDEX = front(Tag.ATTRIBUTE_INDEX, Kind.INTEGER)
ATTRIBUTE_NAME = front(Tag.ATTRIBUTE_NAME, Kind.TEXT)
ATTRIBUTES = front(Tag.ATTRIBUTES, Kind.STRUCTURE)
VENDOR_REFERENCE = front(Tag.ATTRIBUTE_REFERENCE, Kind.STRUCTURE)

Lost = Counter[str]


class Guess(Exception):
    """What can't be translated without one. The text says which field, and why."""


def attributes(of: list[Slice], where: str, lost: Lost) -> bytes:
    """The Attributes that these items, each an Attribute of the older form, say."""
    return structure(ATTRIBUTES, b"".join([attribute(item, where, lost) for item in of]))


def attribute(item: Slice, where: str, lost: Lost) -> bytes:
    """An Attribute of the older form as an item of the newer. Its index is lost."""
    name = value = None
    for child in slices_of(item.value):
        if child.front == ATTRIBUTE_NAME and name is None:
            name = child.text()
        elif child.front >> 8 == Tag.ATTRIBUTE_VALUE and value is None:
            value = child
        elif child.front == ATTRIBUTE_INDEX:
            lost["Attribute Index"] += 1
    if name is None:
        raise Guess(f"{where}: an Attribute without a name")
    if value is None:
        raise Guess(f"{where}, {name}: an Attribute without a value")
    if name not in NAMES:
        return structure(ATTRIBUTE, _vendor(name) + value.whole)
    return with_tag(TAGS_BY_NAME[name], value)


def reference(item: Slice, where: str) -> bytes:
    """An Attribute Name of the older form as an Attribute Reference."""
    if item.front != ATTRIBUTE_NAME:
        raise Guess(f"{where}: an Attribute Name that is no text")
    name = item.text()
    if name not in NAMES:
        return structure(VENDOR_REFERENCE, _vendor(name))
    return ttlv.enumeration(Tag.ATTRIBUTE_REFERENCE, TAGS_BY_NAME[name])


def _vendor(name: str) -> bytes:
    """What names an attribute that the standard does not name."""
    vendor, own = (name[:1], name[2:]) if name.startswith(VENDOR_PREFIXES) else (UNKNOWN_VENDOR, name)
    return ttlv.text(Tag.VENDOR_IDENTIFICATION, vendor) + ttlv.text(Tag.ATTRIBUTE_NAME, own)
