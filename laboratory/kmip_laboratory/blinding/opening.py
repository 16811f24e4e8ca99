"""A file opened for blinding: every string of bytes, every text and all padding in it, with their places."""

from __future__ import annotations

from typing import NamedTuple

from .. import ttlv
from ..hiding import CONTAINERS, Sort, sort_of
from ..records import records, which
from ..tag_names import TAGS_BY_NAME
from ..tags import FileTag, Tag
from ..trouble import say
from ..ttlv import BIG_INTEGER, BYTES, STRUCTURE, TEXT, Item, Kind
from ..untranslated import Untranslated
from .replacing import Bytes

MESSAGES = (FileTag.MESSAGE, FileTag.ANSWER)
# What stands in these is a key's, or the means of one who proves who he is.
KEYS = CONTAINERS | {Tag.KEY_BLOCK, TAGS_BY_NAME["Opaque Data Value"], TAGS_BY_NAME["Derivation Data"]}


class Text(NamedTuple):
    """A text that stands somewhere."""

    sort: Sort
    value: str


class Where(NamedTuple):
    """What an item stands in: the offset from which its place counts, its call, whether that is a message, whether it
    is a key's, and whether it is a container whose values are all hidden."""

    base: int
    call: int
    message: bool
    key: bool = False
    contained: bool = False


class Opened:
    """A file in which the strings of bytes are replaced at once, and the texts as soon as it is known by what."""

    def __init__(self, path: str, data: bytes, replacing: Bytes) -> None:
        self.path = path
        self.file = which(path, data)
        self.data = bytearray(data)
        self.secrets: set[bytes] = set()
        self.strings = 0
        self.numbers = 0
        self.texts: dict[Text, list[int]] = {}
        self.untranslated = Untranslated(path)
        self._replacing = replacing
        for record in records(path, data):
            call = record.item.first(FileTag.CALL, Kind.INTEGER)
            number = call.value if call and isinstance(call.value, int) else 0
            self._open([record.item], Where(record.place, number, False))

    def first_place(self, text: Text) -> int:
        """The offset at which a text stands first."""
        return self.texts[text][0]

    def put(self, text: Text, value: str) -> None:
        """Puts a text of as many bytes into each place of a text."""
        spelled = value.encode("utf-8")
        for place in self.texts[text]:
            self.data[place:place + len(spelled)] = spelled

    def _open(self, items: list[Item], where: Where) -> None:
        """Opens these items, and what stands in them."""
        for item in items:
            tag, kind, _, place = item
            place += where.base
            if kind is STRUCTURE:
                self._open(item.children(), where if tag not in KEYS else where._replace(
                    key=True, contained=where.contained or tag in CONTAINERS))
            elif kind is TEXT:
                self._fill(place, int.from_bytes(self.data[place - 4:place], "big"))
                self._note(item, place, where)
            elif kind is BYTES or kind is BIG_INTEGER:
                self._open_bytes(item, place, where)
            elif kind is Kind.LONG_INTEGER:
                self.numbers += 1
                self._replace(place, bytes(self.data[place:place + 8]), where.key or tag in KEYS)
            elif kind in ttlv.SHORT_NUMBERS:
                self._fill(place, 4)

    def _open_bytes(self, item: Item, place: int, where: Where) -> None:
        value = item.value if isinstance(item.value, bytes) else b""
        self._fill(place, len(value))
        if item.tag in MESSAGES and not where.message:
            self._open_message(value, Where(place, where.call, True))
            return
        self.strings += item.kind is BYTES
        self.numbers += item.kind is BIG_INTEGER
        self._replace(place, value, where.key or item.tag in KEYS)

    def _fill(self, place: int, length: int) -> None:
        """Makes the padding of a value zeros."""
        padding = -length % 8
        if padding:
            self.data[place + length:place + length + padding] = bytes(padding)

    def _open_message(self, spelled: bytes, where: Where) -> None:
        """Opens the message that these bytes are; what is none can't be read, and becomes zeros."""
        self.untranslated.take(spelled)
        try:
            message = ttlv.read_item(spelled)
        except ttlv.NotTtlv as fault:
            say(f"{self.path}: a message of call {where.call} is no TTLV ({fault}): it becomes zeros, and is still "
                "none")
            self.data[where.base:where.base + len(spelled)] = bytes(len(spelled))
            return
        self._open([message], where)

    def _replace(self, place: int, value: bytes, key: bool) -> None:
        if key:
            self.secrets.add(value)
        self.data[place:place + len(value)] = self._replacing.of(value)

    def _note(self, item: Item, place: int, where: Where) -> None:
        value = item.value if isinstance(item.value, str) else ""
        sort = sort_of(item.tag, item.kind, value, where.contained)
        if sort is Sort.HARMLESS:
            return
        self.texts.setdefault(Text(sort, value), []).append(place)
        if sort is Sort.SECRET:
            self.secrets.add(value.encode("utf-8"))


def all_texts(files: list[Opened]) -> dict[Text, tuple[str, int]]:
    """Every text of these files, with the path and the offset at which it stands first."""
    found: dict[Text, tuple[str, int]] = {}
    for opened in files:
        for text in opened.texts:
            found.setdefault(text, (opened.path, opened.first_place(text)))
    return found
