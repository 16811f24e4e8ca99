"""Which calls may be left out together, so that an order that explains the whole explains what is left.

docs/SHRINKING.md says why each of these is so.
"""

from __future__ import annotations

from typing import Iterable, NamedTuple

from ..calls import Call, Name, Piece, Status, names
from ..operations import Operation
from ..records import File, read_file, records, which
from ..recording.declaration import ENTRY
from ..tags import Tag
from ..trouble import Trouble
from ..ttlv import Kind

WITHOUT_EFFECT = (Operation.LOCATE, Operation.GET, Operation.GET_ATTRIBUTES, Operation.QUERY,
                  Operation.DISCOVER_VERSIONS)
BIRTHS = (Operation.CREATE, Operation.REGISTER)
FILLED = (*BIRTHS, Operation.LOCATE)


class Declaration(NamedTuple):
    """A declaration: its header and rows, and its entries with their names by their identifiers."""

    head: bytes
    entries: dict[str, bytes]
    names: dict[str, set[Name]]

    def spelled(self, identifiers: Iterable[str]) -> bytes:
        """The declaration of these objects alone."""
        kept = set(identifiers)
        return self.head + b"".join(entry for identifier, entry in self.entries.items() if identifier in kept)


def read_declaration(path: str) -> Declaration:
    """The declaration in a file."""
    data = read_file(path)
    if which(path, data) is not File.DECLARATION:
        raise Trouble(f"{path} is no declaration, but a {which(path, data).name.lower()}: give the files in their "
                      "order")
    read = Declaration(b"", {}, {})
    head = []
    for record in records(path, data):
        identifier = record.item.first(Tag.UNIQUE_IDENTIFIER, Kind.TEXT)
        if record.item.tag == ENTRY and identifier:
            read.entries[identifier.value] = record.spelled
            read.names[identifier.value] = names(record.item)
        else:
            head.append(record.spelled)
    return read._replace(head=b"".join(head))


def has_effect(call: Call) -> bool:
    """Whether the call may have changed what the server holds."""
    return not call.refused and any(_has_effect(piece, call.end is None) for piece in call.pieces)


def _has_effect(piece: Piece, is_open: bool) -> bool:
    return piece.operation not in WITHOUT_EFFECT and (is_open or piece.status in (Status.SUCCESS, Status.PENDING))


def is_plain(call: Call) -> bool:
    """Whether a search decides of it: it has ended, its items are in order, and none waits for a payload."""
    return call.end is not None and call.ordered and not any(
        piece.status == Status.UNDONE and piece.operation in FILLED and not piece.told for piece in call.pieces)


class Parts:
    """The calls of a transcript in parts: those of one part name objects together, and no other part names these."""

    def __init__(self, calls: list[Call], declaration: Declaration, whole_declaration: bool) -> None:
        self._above: dict[str, str] = {}
        self._bearers = _bearers(calls, declaration)
        self._declared = set(declaration.entries)
        self._changed = self._changed_of(calls)
        self._whole_declaration = whole_declaration
        self.named: dict[int, frozenset[str]] = {call.number: self._named(call) for call in calls}
        every = frozenset(self._declared).union(*self.named.values())
        self.named.update({call.number: every for call in calls if _is_anything(call)})
        for call in calls:
            if has_effect(call):
                together = sorted(self.named[call.number])
                for identifier in together[1:]:
                    self._above[self._top(identifier)] = self._top(together[0])

    def of(self, call: Call) -> frozenset[str]:
        """The parts that a call names, each by one of its identifiers. It can stay only where all of them stay."""
        return frozenset(map(self._top, self.named[call.number]))

    def _top(self, identifier: str) -> str:
        while self._above.get(identifier, identifier) != identifier:
            identifier = self._above[identifier]
        return identifier

    def _changed_of(self, calls: list[Call]) -> set[str]:
        """The declared objects that calls may have changed."""
        touched = [identifier for call in calls if has_effect(call)
                   for piece in call.pieces for identifier in piece.identifiers | piece.answered]
        return self._declared.intersection(touched)

    def _named(self, call: Call) -> frozenset[str]:
        """The objects on which it may hang whether this call is possible."""
        found: set[str] = set()
        for piece in call.pieces:
            found |= piece.identifiers | piece.answered
            if piece.operation in BIRTHS:
                bearers = {bearer for name in piece.names for bearer in self._bearers.get(name, ())}
                found |= bearers if piece.status != Status.SUCCESS else set()
                found |= bearers & self._changed if self._whole_declaration else set()
            if piece.operation == Operation.LOCATE and piece.status != Status.FAILED and self._whole_declaration:
                found |= self._changed
        return frozenset(found)


def _is_anything(call: Call) -> bool:
    """Whether nobody knows which objects a call is about: an open one that bears one, or means one by its place."""
    return call.end is None and any(
        piece.operation in BIRTHS or (piece.operation not in WITHOUT_EFFECT and not piece.identifiers)
        for piece in call.pieces)


def _bearers(calls: list[Call], declaration: Declaration) -> dict[Name, set[str]]:
    """The identifiers of the objects that ever had a name."""
    found: dict[Name, set[str]] = {}
    for identifier, had in declaration.names.items():
        for name in had:
            found.setdefault(name, set()).add(identifier)
    for call in calls:
        for piece in call.pieces:
            if piece.operation in BIRTHS and piece.status == Status.SUCCESS:
                for name in piece.names:
                    found.setdefault(name, set()).update(piece.answered)
    return found
