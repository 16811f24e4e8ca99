"""The payloads of the judged operations, from the older form to the newer. All other payloads stay as they are."""

from __future__ import annotations

from typing import Callable

from ..operations import Operation
from ..slices import Slice, changed_at, slices_of, structure
from ..tag_names import tag_name
from ..tags import Tag
from ..ttlv import Kind, front
from .attributes import ATTRIBUTES, Guess, Lost, attributes, reference

# Of the value of a payload the value that says the same; the text is where in the payload it stands, for people.
Payload = Callable[[bytes, str, Lost], bytes]

TEMPLATE_ATTRIBUTE = front(Tag.TEMPLATE_ATTRIBUTE, Kind.STRUCTURE)
# An identifier that is no text, but one of the standard's numbers for what was done last.
IDENTIFIER_NUMBER = front(Tag.UNIQUE_IDENTIFIER, Kind.ENUMERATION)
ID_PLACEHOLDER = 1
# Without these bytes nothing in a payload is such an identifier.
PLACEHOLDER_AS_NUMBER = IDENTIFIER_NUMBER.to_bytes(4, "big")
KEY_VALUE = (front(Tag.KEY_BLOCK, Kind.STRUCTURE), front(Tag.KEY_VALUE, Kind.STRUCTURE))


def _with_attributes(payload: bytes, where: str, lost: Lost) -> bytes:
    """Create and Register: a Template-Attribute becomes Attributes; a template can't be."""
    children = slices_of(payload)
    if sum(child.front == TEMPLATE_ATTRIBUTE for child in children) > 1:
        raise Guess(f"{where}: a second Template-Attribute")
    return b"".join([_of_template(child, f"{where}, Template-Attribute", lost) if child.front == TEMPLATE_ATTRIBUTE
                     else _object(child, where, lost) for child in children])


def _of_template(template: Slice, where: str, lost: Lost) -> bytes:
    children = slices_of(template.value)
    for child in children:
        if child.front >> 8 != Tag.ATTRIBUTE:
            raise Guess(f"{where}: a {tag_name(child.front >> 8)}, which stands for a template's attributes")
    return attributes(children, where, lost)


def _without_attributes(payload: bytes, where: str, lost: Lost) -> bytes:
    """The answers to Create and Register: which attributes the server set besides has no place in the newer form."""
    children = slices_of(payload)
    kept = [child.whole for child in children if child.front >> 8 != Tag.TEMPLATE_ATTRIBUTE]
    lost["Template-Attribute of an answer"] += len(children) - len(kept)
    return b"".join(kept)


def _gathered(payload: bytes, where: str, lost: Lost) -> bytes:
    """Single Attributes become one structure behind what else there is."""
    children = slices_of(payload)
    found = [child for child in children if child.front >> 8 == Tag.ATTRIBUTE]
    if not found:
        return payload
    rest = [child for child in children if child.front >> 8 != Tag.ATTRIBUTE]
    if any(child.front >> 8 == Tag.ATTRIBUTES for child in rest):
        raise Guess(f"{where}: Attributes of the older form and of the newer")
    return b"".join([child.whole for child in rest]) + attributes(found, where, lost)


def _told(payload: bytes, where: str, lost: Lost) -> bytes:
    """The answer to Get Attributes: as above, and an answer without attributes says that there are none."""
    made = _gathered(payload, where, lost)
    if any(child.front >> 8 == Tag.ATTRIBUTES for child in slices_of(made)):
        return made
    return made + structure(ATTRIBUTES, b"")


def _referring(payload: bytes, where: str, lost: Lost) -> bytes:
    """Get Attributes: names become references."""
    return b"".join([reference(child, where) if child.front >> 8 == Tag.ATTRIBUTE_NAME else child.whole
                     for child in slices_of(payload)])


def _object(item: Slice, where: str, lost: Lost) -> bytes:
    """An object, with the attributes in its Key Value gathered; all else as it is."""
    if item.front >> 8 == Tag.TEMPLATE:
        raise Guess(f"{where}: a template as the object")
    if item.front & 0xFF != Kind.STRUCTURE:
        return item.whole
    return structure(item.front, changed_at(item.value, KEY_VALUE, lambda value: _gathered(
        value, f"{where}, Key Value", lost)))


def _with_object(payload: bytes, where: str, lost: Lost) -> bytes:
    """The answer to Get."""
    return b"".join([_object(child, where, lost) for child in slices_of(payload)])


def names_object(payload: bytes) -> bool:
    """Whether a request's payload names an object itself; else it is about the one in the placeholder."""
    return any(child.front >> 8 == Tag.UNIQUE_IDENTIFIER and not _is_placeholder(child) for child in slices_of(payload))


def without_placeholder(payload: bytes, where: str, lost: Lost) -> bytes:
    """The request of an operation on one object: an identifier goes that says nothing but that the placeholder is
    meant."""
    if PLACEHOLDER_AS_NUMBER not in payload:
        return payload
    return b"".join([child.whole for child in slices_of(payload) if not _is_placeholder(child)])


def _is_placeholder(item: Slice) -> bool:
    return item.front == IDENTIFIER_NUMBER and int.from_bytes(item.value, "big") == ID_PLACEHOLDER


REQUESTS: dict[int, Payload] = {
    Operation.CREATE.value: _with_attributes,
    Operation.REGISTER.value: _with_attributes,
    Operation.LOCATE.value: _gathered,
    Operation.GET_ATTRIBUTES.value: _referring,
}
RESPONSES: dict[int, Payload] = {
    Operation.CREATE.value: _without_attributes,
    Operation.REGISTER.value: _without_attributes,
    Operation.GET.value: _with_object,
    Operation.GET_ATTRIBUTES.value: _told,
}
