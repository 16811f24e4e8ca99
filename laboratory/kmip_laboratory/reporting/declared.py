"""What a declaration says: the rows of the cause table, and the objects that the server held."""

from __future__ import annotations

from typing import Any, NamedTuple

from ..driving.store import Thing
from ..recording.rules import Cause, Row, Visibility
from ..records import read_file, records
from ..tags import FileTag, Tag
from ..ttlv import Item, Kind
from .things import read_thing

ITEM_NOT_FOUND = 1


class Declared(NamedTuple):
    """The rows, those that hold where a declaration has none too, and the objects; the identifiers of those whose bytes
    are declared, and whose an object is; whether names are unique, and who sees what."""

    rows: list[Row]
    things: list[Thing]
    with_bytes: frozenset[str] = frozenset()
    owners: tuple[tuple[str, str], ...] = ()
    unique_names: bool = False
    visibility: int = Visibility.everyone


# Where nothing is declared.
NOTHING = Declared([Row(ITEM_NOT_FOUND, Cause.NotFound)], [])


def read_declared(path: str) -> Declared:
    """What the declaration in this file says."""
    items = [record.item for record in records(path, read_file(path))]
    rows = [row for item in items if item.tag == FileTag.ROW for row in _rows(item)]
    entries = {named.value: item for item in items if item.tag == FileTag.ENTRY
               for named in item.every(Tag.UNIQUE_IDENTIFIER, Kind.TEXT)[:1]}
    return Declared(rows or NOTHING.rows, [read_thing(name, item) for name, item in entries.items()],
                    frozenset(name for name, item in entries.items() if item.every(Tag.KEY_MATERIAL, Kind.BYTES)),
                    tuple((name, owner.value) for name, item in entries.items()
                          for owner in item.every(FileTag.OWNER, Kind.TEXT)),
                    _said(items, FileTag.UNIQUE_NAMES, Kind.BOOLEAN, False),
                    _said(items, FileTag.VISIBILITY, Kind.ENUMERATION, Visibility.everyone))


def _said(items: list[Item], tag: FileTag, kind: Kind, otherwise: Any) -> Any:
    """What the header says under this tag."""
    headers = (item for item in items if item.tag == FileTag.DECLARATION_HEADER)
    return next((found.value for header in headers for found in header.every(tag, kind)), otherwise)


def _rows(item: Item) -> list[Row]:
    reason = item.first(Tag.RESULT_REASON, Kind.ENUMERATION)
    cause = item.first(FileTag.CAUSE, Kind.ENUMERATION)
    return [Row(reason.value, Cause(cause.value))] if reason and cause and cause.value in list(Cause) else []
