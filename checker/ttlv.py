"""FORMATS, TTLV, Tags and Enumerations: items, what bytes spell, and structures as rows of their fields."""
from __future__ import annotations
import re
from enum import Enum
from typing import Any, Iterable, Iterator, NamedTuple, Sequence

STRUCTURE, INTEGER, LONG, BIG, ENUMERATION, BOOLEAN, TEXT, BYTES, DATE, INTERVAL, DATE_EXTENDED = range(1, 12)
CREATE, REGISTER, LOCATE, GET, GET_ATTRIBUTES, ACTIVATE, REVOKE, DESTROY = 1, 3, 8, 0xA, 0xB, 0x12, 0x13, 0x14
QUERY, DISCOVER_VERSIONS, POLL = 0x18, 0x1E, 0x1A
MAKING, CHANGING = (CREATE, REGISTER), (ACTIVATE, REVOKE, DESTROY)
ON_AN_OBJECT = (GET, GET_ATTRIBUTES, *CHANGING)
# The statuses, and two more: of an answer in which none can be read, and where there is no answer.
SUCCESS, FAILED, PENDING, UNDONE, UNREADABLE, NO_ANSWER = range(6)
(CONTINUE, STOP, UNDO), (SYMMETRIC_KEY, SECRET_DATA, AES) = (1, 2, 3), (2, 7, 3)

class Tag:
    """Tags of messages, and of the three files, by their names in FORMATS, which are longer."""
    # ASKED and SHOWN are the Request and the Response Payload, STAMP is the Time Stamp, KEY a Symmetric Key,
    # SECRET a Secret Data, OPTION the Batch Error Continuation Option, WRAPPING the Key Wrapping Data,
    # WRAPPING_ASKED the Key Wrapping Specification; SEALED_AT is the moment of a sealed record.
    BATCH_COUNT, OPTION, BATCH_ITEM, BATCH_ORDER = range(0x42000D, 0x420011)
    ACTIVATION, ASYNCHRONOUS, COMPROMISE, ALGORITHM, LENGTH = 0x420001, 0x420007, 0x420020, 0x420028, 0x42002A
    MASK, DEACTIVATION, DESTROY, INITIAL, KEY_BLOCK = 0x42002C, 0x42002F, 0x420033, 0x420039, 0x420040
    KEY_FORMAT, KEY_MATERIAL, KEY_VALUE, WRAPPING = 0x420042, 0x420043, 0x420045, 0x420046
    WRAPPING_ASKED, LINKED, MAXIMUM, NAME, NAME_TYPE = 0x420047, 0x42004C, 0x42004F, 0x420053, 0x420054
    NAME_VALUE, OBJECT_TYPE, OPERATION, PRIVATE, PROTOCOL = 0x420055, 0x420057, 0x42005C, 0x420066, 0x420069
    MAJOR, MINOR, PUBLIC, REQUEST_HEADER, REQUEST = 0x42006A, 0x42006B, 0x42006F, 0x420077, 0x420078
    ASKED, RESPONSE_HEADER, RESPONSE, SHOWN, REASON = 0x420079, 0x42007A, 0x42007B, 0x42007C, 0x42007E
    STATUS, REVOCATION, REVOCATION_CODE, SECRET, STATE = 0x42007F, 0x420081, 0x420082, 0x420085, 0x42008D
    KEY, STAMP, BATCH_ID, IDENTIFIER, ATTRIBUTES = 0x42008F, 0x420092, 0x420093, 0x420094, 0x420125
    REFERENCE, NEW_ATTRIBUTE = 0x42013B, 0x42013D
    TRANSCRIPT, VERSION, RECORDING, SEGMENT, PREVIOUS = 0x540001, 0x540002, 0x540004, 0x540005, 0x540006
    BEGIN, CALL, CLIENT, MESSAGE, SEALED_AT, SEAL, NOTE_KIND, NOTE_TEXT, RECORDS = range(0x540010, 0x540019)
    END, NOTE, CLOSE = range(0x540020, 0x540023)
    DECLARATION, UNIQUE_NAMES, ROW, CAUSE, ENTRY, UNJUDGED, TOLERANCE, VISIBILITY = range(0x540030, 0x540038)
    ALLOW_LINE, ACT, ALLOW, OWN_LINE, OWNER, ASIDE_ENTRY = range(0x540038, 0x54003E)
    WITNESS, TURN, FILL, ITEM, ANSWER, PLACE, MOMENT, BIRTH, ASIDE = range(0x540040, 0x540049)

DATES = (Tag.INITIAL, Tag.ACTIVATION, Tag.DEACTIVATION, Tag.DESTROY, Tag.COMPROMISE)
# The judged attributes of which there is one at most.
SINGLE = (Tag.OBJECT_TYPE, Tag.STATE, Tag.ALGORITHM, Tag.LENGTH, Tag.MASK, *DATES)
# The types of fields. What makes a message outside by being there has none; all others are Structures.
TYPES = {getattr(Tag, name): kind for kind, names in {
    INTEGER: "LENGTH MASK MAXIMUM BATCH_COUNT MAJOR MINOR VERSION CALL SEGMENT RECORDS TOLERANCE ITEM PLACE ASIDE",
    ENUMERATION: "OBJECT_TYPE ALGORITHM STATE OPERATION OPTION STATUS REASON REVOCATION_CODE KEY_FORMAT "
                 "NAME_TYPE REFERENCE NOTE_KIND CAUSE UNJUDGED VISIBILITY ACT ALLOW",
    BOOLEAN: "BATCH_ORDER UNIQUE_NAMES", TEXT: "NAME_VALUE IDENTIFIER RECORDING CLIENT NOTE_TEXT OWNER",
    BYTES: "KEY_MATERIAL BATCH_ID PREVIOUS MESSAGE SEAL ANSWER", DATE_EXTENDED: "SEALED_AT",
    DATE: "INITIAL ACTIVATION DEACTIVATION DESTROY COMPROMISE STAMP MOMENT", None: "WRAPPING WRAPPING_ASKED",
}.items() for name in names.split()}

LENGTHS = {INTEGER: 4, LONG: 8, ENUMERATION: 4, BOOLEAN: 8, DATE: 8, INTERVAL: 4, DATE_EXTENDED: 8}
SIGNED, MOST_BYTES, MOST_LEVELS = (INTEGER, LONG, DATE, DATE_EXTENDED), 1_048_576, 16
Ttlv = Enum("Ttlv", "Truncated UnknownType BadLength BadBoolean BadText Overrun TooDeep TooLong")

class Ended(Exception):
    """What is printed in place of a yes, and the status."""

class Item(NamedTuple):
    """An item: its tag, its type, and its value or, of a Structure, its children; NOTHING is one that isn't there."""
    tag: int
    type: int
    value: Any = None
    children: tuple[Item, ...] = ()
    def every(self, *tags: int) -> list[Item]:
        """A repeated field: all children with one of these tags."""
        return [it for it in self.children if it.tag in tags]
    def first(self, *tags: int) -> Item | None:
        """A field: the first child with one of these tags."""
        return next((it for it in self.children if it.tag in tags), None)
    def values(self, tag: int) -> list[Any]:
        """The values of a repeated field."""
        return [it.value for it in self.every(tag)]
    def get(self, tag: int, other: Any = None) -> Any:
        """The value of a field; where it isn't there, or not of its type, another."""
        found = self.first(tag)
        return found.value if found is not None and found.type == TYPES.get(tag) else other
    def inner(self, tag: int) -> Item:
        """The Structure that a field is, NOTHING where it is none."""
        found = self.first(tag)
        return found if found is not None and found.type == STRUCTURE else NOTHING

NOTHING = Item(-1, STRUCTURE)

def first_of(tests: Iterable[tuple[object, Any]]) -> Any:
    """What the first of these tests tells that holds, None where none does."""
    return next((told for holds, told in tests if holds), None)

def refuse(words: str, tests: Iterable[tuple[object, Enum]], behind: str = "", status: int = 2) -> None:
    """Ends the audit where one of these tests holds: with these words, and with what the first of them tells."""
    told = first_of(tests)
    if told is not None:
        raise Ended(f"{words} {told.value} {told.name}{behind}", status)

def differ(*pairs: tuple[object, object]) -> bool:
    """Whether in one of these pairs both are there, and not equal."""
    return any(one is not None and other is not None and one != other for one, other in pairs)

def are_once_of(numbers: Sequence[int], wanted: Iterable[int]) -> bool:
    """Whether numbers are some of those that are wanted, each once."""
    return {*numbers} <= {*wanted} and len({*numbers}) == len(numbers)

def item_at(data: bytes, place: int, end: int, name: str, level: int = 1) -> tuple[Item, int]:
    """The item at a place of all bytes of a file or, behind level 1, of a structure that end there; and its end."""
    head = data[place:place + 8]
    tag, kind, length = (int.from_bytes(it, "big") for it in (head[:3], head[3:4], head[4:]))
    start, after = place + 8, place + 8 + (length + 7) // 8 * 8
    value = data[start:start + length]
    number, text = int.from_bytes(value[:8], "big", signed=kind in SIGNED), value.decode(errors="ignore")
    short = Ttlv.Truncated if level == 1 else Ttlv.Overrun
    is_odd = kind in (STRUCTURE, BIG) and length % 8 > 0 or kind == BIG and length == 0
    fault = first_of((
        (level > MOST_LEVELS, (Ttlv.TooDeep, place)),
        (start > end, (short, end if level == 1 else place)),
        (not STRUCTURE <= kind <= DATE_EXTENDED, (Ttlv.UnknownType, place + 3)),
        (is_odd or length != LENGTHS.get(kind, length), (Ttlv.BadLength, place + 4)),
        (level == 1 and after - place > MOST_BYTES, (Ttlv.TooLong, place + 4)),
        (after > end, (short, end if level == 1 else place + 4)),
        (kind == BOOLEAN and number > 1, (Ttlv.BadBoolean, start)),
        (kind == TEXT and text.encode() != value, (Ttlv.BadText, start))))
    if fault is not None:
        raise Ended(f"malformed: {name} offset {fault[1]} kind 1 Ttlv {fault[0].name}", 2)
    children: list[Item] = []
    while kind == STRUCTURE and start < after:
        child, start = item_at(data, start, after, name, level + 1)
        children.append(child)
    told = {STRUCTURE: None, BOOLEAN: number == 1, TEXT: text, BYTES: value, BIG: value}.get(kind, number)
    return Item(tag, kind, told, tuple(children)), after

Outside = Enum("Outside", "NotAMessage Version Count Operation ObjectType IdentifierForm Wrapped Format "
                          "Missing Attribute Pending Disagree Unordered")

class Row(NamedTuple):
    """A field: its tags, how often it is there, the numbers allowed, what holds where it is another, its children."""
    tags: tuple[int, ...]
    how: str
    numbers: frozenset[int]
    wrong: Outside
    fields: tuple[Row, ...] = ()

TOKEN = re.compile(r"([\w|]+)=?([\d,-]*)!?(\w*)([?*]?)(\(?)|\)")

def described(text: str) -> tuple[Row, ...]:
    """The rows that a text describes: tags, with | another in place of one, = numbers, ! the kind of outside,
    ? for once or not at all, * for any number of times, and the children in parentheses."""
    levels: list[list[Row]] = [[]]
    for names, numbers, wrong, how, opens in TOKEN.findall(text):
        if names:
            tags, ends = (getattr(Tag, it) for it in names.split("|")), re.findall(r"(\d+)(?:-(\d+))?", numbers)
            allowed = frozenset(one for it in ends for one in range(int(it[0]), int(it[1] or it[0]) + 1))
            levels[-1].append(Row(tuple(tags), how, allowed, Outside[wrong or "Missing"]))
            levels += [[]] if opens else []
        else:
            fields = tuple(levels.pop())
            levels[-1][-1] = levels[-1][-1]._replace(fields=fields)
    return tuple(levels[0])

def kinds_of(item: Item, *rows: Row) -> Iterator[Outside]:
    """The kinds of outside that hold for fields of a structure, in which others stand too, in any order."""
    for row in rows:
        found = item.every(*row.tags)
        if not found and row.how == "":
            yield Outside.Missing
        for one in found if row.how == "*" else found[:1]:
            if one.type != TYPES.get(row.tags[0], STRUCTURE):
                yield Outside.Missing if row.numbers else row.wrong
            elif row.numbers and one.value not in row.numbers:
                yield row.wrong
            else:
                yield from kinds_of(one, *row.fields)

def is_exactly(item: Item, row: Row) -> bool:
    """Whether an item is the one of a row, with these children in this order; if it has none, with any."""
    fields = {it.tags[0]: it for it in row.fields}
    form, tags = (f"(,{tag}){it.how}" for tag, it in fields.items()), (f",{it.tag}" for it in item.children)
    is_own = (item.tag, item.type) == (row.tags[0], TYPES.get(row.tags[0], STRUCTURE))
    are_own = re.fullmatch("".join(form), "".join(tags)) and all(is_exactly(it, fields[it.tag]) for it in item.children)
    return bool(is_own and item.value in (row.numbers or [item.value]) and (are_own or not fields))
