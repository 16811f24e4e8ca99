"""Messages for tests, spelled by hand: a Get, and the answer that nothing is there."""

from __future__ import annotations

# The fields as docs/FORMATS.md has them; the spelling is the test's own, not the recorder's.


def item(tag: int, kind: int, value: bytes) -> bytes:
    """An item of TTLV."""
    return tag.to_bytes(3, "big") + bytes([kind]) + len(value).to_bytes(4, "big") + value + bytes(-len(value) % 8)


def number(tag: int, kind: int, value: int, length: int = 4) -> bytes:
    """An item whose value is a number."""
    return item(tag, kind, value.to_bytes(length, "big"))


def version(major: int, minor: int) -> bytes:
    """A Protocol Version."""
    return item(0x420069, 1, number(0x42006A, 2, major) + number(0x42006B, 2, minor))


def get(identifier: str, protocol: tuple[int, int] = (2, 1)) -> bytes:
    """A request to get an object."""
    header = item(0x420077, 1, version(*protocol) + number(0x42000D, 2, 1))
    asked = number(0x42005C, 5, 0x0A) + item(0x420079, 1, item(0x420094, 7, identifier.encode()))
    return item(0x420078, 1, header + item(0x42000F, 1, asked))


def not_found(stamp: int, protocol: tuple[int, int] = (2, 1), text: str = "") -> bytes:
    """The answer to a Get that there is no such object."""
    header = item(0x42007A, 1, version(*protocol) + number(0x420092, 9, stamp, 8) + number(0x42000D, 2, 1))
    answered = number(0x42005C, 5, 0x0A) + number(0x42007F, 5, 1) + number(0x42007E, 5, 1)
    told = item(0x42007D, 7, text.encode()) if text else b""
    return item(0x42007B, 1, header + item(0x42000F, 1, answered + told))


def text(tag: int, value: str) -> bytes:
    """An item whose value is a text."""
    return item(tag, 7, value.encode())


def structure(tag: int, *items: bytes) -> bytes:
    """A structure of these items."""
    return item(tag, 1, b"".join(items))


def asking(operation: int, *payload: bytes) -> bytes:
    """A Batch Item of a request."""
    return structure(0x42000F, number(0x42005C, 5, operation), structure(0x420079, *payload))


def answering(operation: int, status: int, *payload: bytes) -> bytes:
    """A Batch Item of a response that names its operation."""
    return structure(0x42000F, number(0x42005C, 5, operation), number(0x42007F, 5, status),
                     structure(0x42007C, *payload))


def request(*items: bytes, protocol: tuple[int, int] = (2, 1), more: bytes = b"") -> bytes:
    """A Request Message of these Batch Items; `more` stands in its header."""
    return structure(0x420078, structure(0x420077, version(*protocol), more, number(0x42000D, 2, len(items))), *items)


def response(stamp: int, *items: bytes, protocol: tuple[int, int] = (2, 1)) -> bytes:
    """A Response Message of these Batch Items."""
    return structure(0x42007B, structure(0x42007A, version(*protocol), number(0x420092, 9, stamp, 8),
                                         number(0x42000D, 2, len(items))), *items)


def refusal(stamp: int, protocol: tuple[int, int] = (2, 1)) -> bytes:
    """A response that refuses a whole message."""
    return response(stamp, structure(0x42000F, number(0x42007F, 5, 1), number(0x42007E, 5, 4)), protocol=protocol)


def begin(call: int, message: bytes, client: str = "a") -> bytes:
    """A begin mark."""
    return structure(0x540010, number(0x540011, 2, call), text(0x540012, client), item(0x540013, 8, message))


def end(call: int, message: bytes) -> bytes:
    """An end mark."""
    return structure(0x540020, number(0x540011, 2, call), item(0x540013, 8, message))


def transcript(*marks: bytes) -> bytes:
    """A transcript of these marks."""
    return structure(0x540001, number(0x540002, 2, 1)) + b"".join(marks)


def witness(*calls: int) -> bytes:
    """A witness with these calls as turns."""
    return structure(0x540040, number(0x540002, 2, 1)) + b"".join(
        structure(0x540041, number(0x540011, 2, call)) for call in calls)
