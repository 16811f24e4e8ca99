"""Spells KMIP messages and the auditor's three files, for the scripts beside it: items with zero padding, requests, answers, marks and turns."""
from dataclasses import dataclass, field
from hashlib import sha256

STRUCTURE, INTEGER, ENUMERATION, BOOLEAN, TEXT, BYTES, DATE_TIME, DATE_TIME_EXTENDED = 1, 2, 5, 6, 7, 8, 9, 0x0B

CREATE, REGISTER, LOCATE, GET, GET_ATTRIBUTES, ACTIVATE, REVOKE, DESTROY = 1, 3, 8, 0x0A, 0x0B, 0x12, 0x13, 0x14
QUERY = 0x18
SUCCESS, FAILED, PENDING, UNDONE = 0, 1, 2, 3
CONTINUE, STOP, UNDO = 1, 2, 3
SYMMETRIC_KEY, SECRET_DATA = 2, 7
PRE_ACTIVE, ACTIVE, DEACTIVATED = 1, 2, 3
AES = 3


def item(tag: int, kind: int, value: bytes) -> bytes:
    """An item with zero padding."""
    return tag.to_bytes(3, "big") + bytes([kind]) + len(value).to_bytes(4, "big") + value + bytes(-len(value) % 8)


def structure(tag: int, *children: bytes) -> bytes:
    return item(tag, STRUCTURE, b"".join(children))


def integer(tag: int, number: int) -> bytes:
    return item(tag, INTEGER, number.to_bytes(4, "big", signed=True))


def enumeration(tag: int, number: int) -> bytes:
    return item(tag, ENUMERATION, number.to_bytes(4, "big"))


def boolean(tag: int, holds: bool) -> bytes:
    return item(tag, BOOLEAN, int(holds).to_bytes(8, "big"))


def text(tag: int, characters: str) -> bytes:
    return item(tag, TEXT, characters.encode())


def date(tag: int, second: int) -> bytes:
    return item(tag, DATE_TIME, second.to_bytes(8, "big", signed=True))


def protocol_version(major: int, minor: int) -> bytes:
    return structure(0x420069, integer(0x42006A, major), integer(0x42006B, minor))


VERSION = protocol_version(2, 1)


def identifier(name: str) -> bytes:
    return text(0x420094, name)


def name_attribute(value: str) -> bytes:
    return structure(0x420053, text(0x420055, value), enumeration(0x420054, 1))


def attributes(
    *,
    bits: int | None = None,
    mask: int | None = None,
    names: tuple[str, ...] = (),
    activation: int | None = None,
    deactivation: int | None = None,
    destroyed: int | None = None,
    compromised: int | None = None,
) -> bytes:
    """Attributes of an AES key of so many bits, with a usage mask, names and dates."""
    children = [name_attribute(name) for name in names]
    if bits is not None:
        children += [enumeration(0x420028, AES), integer(0x42002A, bits)]
    if mask is not None:
        children.append(integer(0x42002C, mask))
    dates = ((0x420001, activation), (0x42002F, deactivation), (0x420033, destroyed), (0x420020, compromised))
    children += [date(tag, second) for tag, second in dates if second is not None]
    return structure(0x420125, *children)


def symmetric_key(material: bytes, bits: int | None = None) -> bytes:
    """A raw AES key, which says that it has so many bits."""
    value = structure(0x420045, item(0x420043, BYTES, material))
    length = 8 * len(material) if bits is None else bits
    return structure(0x42008F, structure(0x420040, enumeration(0x420042, 1), value, enumeration(0x420028, AES), integer(0x42002A, length)))


def ask(operation: int, *payload: bytes) -> bytes:
    """An item of a request."""
    return structure(0x42000F, enumeration(0x42005C, operation), structure(0x420079, *payload))


def answer(operation: int, *payload: bytes, status: int = SUCCESS, reason: int | None = None) -> bytes:
    """An item of a response; a failed one has no payload."""
    parts = [enumeration(0x42005C, operation), enumeration(0x42007F, status)]
    if reason is not None:
        parts.append(enumeration(0x42007E, reason))
    if status != FAILED:
        parts.append(structure(0x42007C, *payload))
    return structure(0x42000F, *parts)


def undone(operation: int) -> bytes:
    """An answer that is Undone, without its payload."""
    return structure(0x42000F, enumeration(0x42005C, operation), enumeration(0x42007F, UNDONE))


def refused(reason: int) -> bytes:
    """The answer that refuses a whole message."""
    return structure(0x42000F, enumeration(0x42007F, FAILED), enumeration(0x42007E, reason))


def request(*asks: bytes, option: int | None = None, ordered: bool | None = None, version: bytes = VERSION, pending: bytes = b"") -> bytes:
    """A request; `pending` is an Asynchronous Indicator, by which an answer may be Pending."""
    header = [version, pending]
    if option is not None:
        header.append(enumeration(0x42000E, option))
    if ordered is not None:
        header.append(boolean(0x420010, ordered))
    return structure(0x420078, structure(0x420077, *header, integer(0x42000D, len(asks))), *asks)


def response(stamp: int, *answers: bytes, version: bytes = VERSION) -> bytes:
    return structure(0x42007B, structure(0x42007A, version, date(0x420092, stamp), integer(0x42000D, len(answers))), *answers)


def begin_mark(call: int, client: str, message: bytes) -> bytes:
    return structure(0x540010, integer(0x540011, call), text(0x540012, client), item(0x540013, BYTES, message))


def end_mark(call: int, message: bytes) -> bytes:
    return structure(0x540020, integer(0x540011, call), item(0x540013, BYTES, message))


def witness_header(version: int) -> bytes:
    return structure(0x540040, integer(0x540002, version))


TRANSCRIPT_HEADER = structure(0x540001, integer(0x540002, 1))
WITNESS_HEADER = witness_header(1)


def declaration_header(unique_names: bool = False, tolerance: int | None = None, unjudged: int = 1, visibility: int = 1) -> bytes:
    """A header of version 1; of version 2, where a tolerance is given, or a rule that isn't that of version 1."""
    if tolerance is None and (unjudged, visibility) == (1, 1):
        return structure(0x540030, integer(0x540002, 1), boolean(0x540031, unique_names))
    rules = enumeration(0x540035, unjudged), integer(0x540036, tolerance or 0), enumeration(0x540037, visibility)
    return structure(0x540030, integer(0x540002, 2), boolean(0x540031, unique_names), *rules)


def own_line(tag: int) -> bytes:
    """An attribute that the server itself may give an object at birth."""
    return structure(0x54003B, enumeration(0x42013B, tag))


def allow_line(act: int, state: int, word: int) -> bytes:
    """The server's own word for a cell of the table of states."""
    return structure(0x540038, enumeration(0x540039, act), enumeration(0x42008D, state), enumeration(0x54003A, word))


def aside_entry(name: str) -> bytes:
    """An identifier that is set aside."""
    return structure(0x54003D, identifier(name))


def row(reason: int, cause: int) -> bytes:
    return structure(0x540032, enumeration(0x42007E, reason), enumeration(0x540033, cause))


def entry(name: str, bits: int = 128, names: tuple[str, ...] = (), material: bytes | None = None, owner: str | None = None, **dates: int | None) -> bytes:
    """A declared AES key."""
    parts = [identifier(name), enumeration(0x420057, SYMMETRIC_KEY), attributes(bits=bits, names=names, **dates)]
    if material is not None:
        parts.append(item(0x420043, BYTES, material))
    if owner is not None:
        parts.append(text(0x54003C, owner))
    return structure(0x540034, *parts)


def turn(call: int, *parts: bytes) -> bytes:
    return structure(0x540041, integer(0x540011, call), *parts)


def given_answer(message: bytes) -> bytes:
    """The answer that a turn gives to an open call."""
    return item(0x540044, BYTES, message)


def place(number: int) -> bytes:
    """The place of an item, in the order in which a turn takes those of a call without order."""
    return integer(0x540045, number)


def moment(second: int) -> bytes:
    """The moment at which a turn has its call taken."""
    return date(0x540046, second)


def birth(number: int, *attributes: bytes) -> bytes:
    """The attributes that a turn gives, of the server's own, to the object that an item makes."""
    return structure(0x540047, integer(0x540043, number), structure(0x420125, *attributes))


def aside(number: int) -> bytes:
    """An item that a turn sets aside."""
    return integer(0x540048, number)


def fill(number: int, *payload: bytes) -> bytes:
    """The payload that a turn gives to an item."""
    return structure(0x540042, integer(0x540043, number), structure(0x42007C, *payload))


@dataclass
class Session:
    """A session whose calls are taken in the order in which they are added. A call that is not answered stays open."""

    declared: list[bytes] = field(default_factory=lambda: [declaration_header()])
    calls: list[tuple[bytes, bytes | None]] = field(default_factory=list)
    overlapping: bool = False

    def call(self, asked: bytes, answered: bytes | None) -> None:
        self.calls.append((asked, answered))

    def transcript(self) -> bytes:
        """Its marks: each call by itself, or all begun before the first ends."""
        begins = [begin_mark(number, "a", asked) for number, (asked, _) in enumerate(self.calls, 1)]
        ends = [b"" if answered is None else end_mark(number, answered) for number, (_, answered) in enumerate(self.calls, 1)]
        if self.overlapping:
            return TRANSCRIPT_HEADER + b"".join(begins) + b"".join(ends)
        return TRANSCRIPT_HEADER + b"".join(mark for pair in zip(begins, ends) for mark in pair)

    def declaration(self) -> bytes:
        return b"".join(self.declared)

    def witness(self) -> bytes:
        return WITNESS_HEADER + b"".join(turn(number) for number in range(1, len(self.calls) + 1))


@dataclass
class Clients(Session):
    """A session whose calls come from these clients. So many of the first calls stand alone; all others begin before
    the first of them ends."""

    names: list[str] = field(default_factory=list)
    alone: int | None = None

    def transcript(self) -> bytes:
        begins, ends = [], []
        for number, (name, (asked, answered)) in enumerate(zip(self.names, self.calls), 1):
            begins.append(begin_mark(number, name, asked))
            ends.append(b"" if answered is None else end_mark(number, answered))
        alone = len(self.calls) if self.alone is None else self.alone
        pairs = [mark for pair in zip(begins[:alone], ends) for mark in pair]
        return TRANSCRIPT_HEADER + b"".join([*pairs, *begins[alone:], *ends[alone:]])


@dataclass
class Sealed(Session):
    """A session whose transcript is sealed: one segment of a recording."""

    recording: str = "a recording"
    segment: int = 1
    previous: bytes = bytes(32)

    def records(self) -> tuple[bytes, bytes]:
        """The transcript, and its head."""
        label = integer(0x540002, 2), text(0x540004, self.recording), integer(0x540005, self.segment), item(0x540006, BYTES, self.previous)
        made = [structure(0x540001, *label)]
        seal = sha256(made[0]).digest()
        marks = [mark for number, (asked, answered) in enumerate(self.calls, 1) for mark in sealed_marks(number, asked, answered)]
        if self.overlapping:
            marks.sort(key=lambda mark: mark[0])
        for second, (tag, children) in enumerate([*marks, (0x540022, [integer(0x540018, len(marks))])]):
            moment = item(0x540014, DATE_TIME_EXTENDED, (1_700_000_000_000_000 + 1_000_000 * second).to_bytes(8, "big"))
            ahead = structure(tag, *children, moment, item(0x540015, BYTES, bytes(32)))[:-32]
            seal = sha256(seal + ahead).digest()
            made.append(ahead + seal)
        return b"".join(made), seal

    def transcript(self) -> bytes:
        return self.records()[0]

    def head(self) -> str:
        return self.records()[1].hex()


def sealed_marks(number: int, asked: bytes, answered: bytes | None) -> list[tuple[int, list[bytes]]]:
    """The tags of a call's marks, with their children ahead of the moment and the seal."""
    begin = 0x540010, [integer(0x540011, number), text(0x540012, "a"), item(0x540013, BYTES, asked)]
    return [begin] if answered is None else [begin, (0x540020, [integer(0x540011, number), item(0x540013, BYTES, answered)])]
