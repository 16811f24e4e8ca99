"""Small sessions for tests: requests and answers of the judged operations, and a server of a few keys that is right.

The fields are as docs/FORMATS.md has them, and what the server answers is as docs/PROFILE.md has it.
"""

from __future__ import annotations

import random
from typing import Optional

from messages import item, number, version

CREATE, REGISTER, LOCATE, GET, GET_ATTRIBUTES, ACTIVATE, REVOKE, DESTROY = 1, 3, 8, 0x0A, 0x0B, 0x12, 0x13, 0x14
NOT_FOUND = 1
PRE_ACTIVE, ACTIVE = 1, 2


def request(operation: int, payload: bytes) -> bytes:
    """A request of one item."""
    header = item(0x420077, 1, version(2, 1) + number(0x42000D, 2, 1))
    return item(0x420078, 1, header + item(0x42000F, 1, number(0x42005C, 5, operation) + item(0x420079, 1, payload)))


def response(operation: int, stamp: int, payload: Optional[bytes], reason: int = 0) -> bytes:
    """A response of one item: a success, or where there is no payload a failure."""
    header = item(0x42007A, 1, version(2, 1) + number(0x420092, 9, stamp, 8) + number(0x42000D, 2, 1))
    status = number(0x42007F, 5, 0) + item(0x42007C, 1, payload) if payload is not None else (
        number(0x42007F, 5, 1) + number(0x42007E, 5, reason))
    return item(0x42007B, 1, header + item(0x42000F, 1, number(0x42005C, 5, operation) + status))


def identifier(text: str) -> bytes:
    """A Unique Identifier."""
    return item(0x420094, 7, text.encode("utf-8"))


def attributes(*parts: bytes) -> bytes:
    """Attributes."""
    return item(0x420125, 1, b"".join(parts))


def name(text: str) -> bytes:
    """A Name."""
    return item(0x420053, 1, item(0x420055, 7, text.encode("utf-8")) + number(0x420054, 5, 1))


def key(data: bytes) -> bytes:
    """A Symmetric Key of the algorithm AES."""
    block = number(0x420042, 5, 1) + item(0x420045, 1, item(0x420043, 8, data))
    return item(0x42008F, 1, item(0x420040, 1, block + number(0x420028, 5, 3) + number(0x42002A, 2, 8 * len(data))))


def declaration(*entries: bytes) -> bytes:
    """A declaration of these entries."""
    return item(0x540030, 1, number(0x540002, 2, 1) + number(0x540031, 6, 0, 8)) + b"".join(entries)


def entry(text: str, data: bytes, *names: str) -> bytes:
    """A declared key."""
    told = attributes(*map(name, names), number(0x420028, 5, 3), number(0x42002A, 2, 8 * len(data)))
    return item(0x540034, 1, identifier(text) + number(0x420057, 5, 2) + told + item(0x420043, 8, data))


class Server:
    """Keys with their bytes, names and states; it answers rightly, one call after the other."""

    def __init__(self, seed: int) -> None:
        self.random = random.Random(seed)
        self.stamp = 1_700_000_000
        self.keys: dict[str, tuple[bytes, str, int]] = {}
        self.entries: list[bytes] = []
        self._born = 0

    def declare(self) -> None:
        """One key is there at the start."""
        text, data = self._new()
        self.entries.append(entry(text, data, f"name of {text}"))

    def call(self) -> tuple[bytes, bytes]:
        """Some call, and its answer."""
        self.stamp += self.random.choice((0, 0, 1))
        does = self.random.choice((self.register, self.activate, self.get, self.get, self.locate, self.state,
                                   self.destroy))
        return does()

    def register(self) -> tuple[bytes, bytes]:
        """A key is brought."""
        text, data = self._new()
        asked = number(0x420057, 5, 2) + attributes(name(f"name of {text}"), number(0x42002C, 2, 12)) + key(data)
        return request(REGISTER, asked), response(REGISTER, self.stamp, identifier(text))

    def get(self) -> tuple[bytes, bytes]:
        """A key is shown."""
        return self.shown(self._some())

    def shown(self, text: str, data: Optional[bytes] = None) -> tuple[bytes, bytes]:
        """A key is shown, with its bytes or with others."""
        asked = request(GET, identifier(text))
        if text not in self.keys:
            return asked, response(GET, self.stamp, None, NOT_FOUND)
        told = number(0x420057, 5, 2) + identifier(text) + key(data or self.keys[text][0])
        return asked, response(GET, self.stamp, told)

    def state(self) -> tuple[bytes, bytes]:
        """A key's State is told."""
        text = self._some()
        asked = request(GET_ATTRIBUTES, identifier(text) + number(0x42013B, 5, 0x42008D))
        if text not in self.keys:
            return asked, response(GET_ATTRIBUTES, self.stamp, None, NOT_FOUND)
        told = attributes(number(0x42008D, 5, self.keys[text][2]))
        return asked, response(GET_ATTRIBUTES, self.stamp, identifier(text) + told)

    def activate(self) -> tuple[bytes, bytes]:
        """A key is activated, where that may be."""
        text = self._some()
        asked = request(ACTIVATE, identifier(text))
        if text not in self.keys or self.keys[text][2] != PRE_ACTIVE:
            return asked, response(ACTIVATE, self.stamp, None, 0x100)
        self.keys[text] = (*self.keys[text][:2], ACTIVE)
        return asked, response(ACTIVATE, self.stamp, identifier(text))

    def destroy(self) -> tuple[bytes, bytes]:
        """A key is destroyed."""
        text = self._some()
        asked = request(DESTROY, identifier(text))
        if text not in self.keys:
            return asked, response(DESTROY, self.stamp, None, NOT_FOUND)
        del self.keys[text]
        return asked, response(DESTROY, self.stamp, identifier(text))

    def locate(self) -> tuple[bytes, bytes]:
        """The keys of a State, or with a name, are listed."""
        state = self.random.choice((PRE_ACTIVE, ACTIVE))
        asked = request(LOCATE, attributes(number(0x42008D, 5, state)))
        listed = [identifier(text) for text, (_, _, now) in self.keys.items() if now == state]
        return asked, response(LOCATE, self.stamp, b"".join(listed))

    def _new(self) -> tuple[str, bytes]:
        self._born += 1
        text, data = f"k{self._born}", bytes(self.random.randrange(256) for _ in range(16))
        self.keys[text] = (data, f"name of {text}", PRE_ACTIVE)
        return text, data

    def _some(self) -> str:
        return self.random.choice([*self.keys, "k1", "k2"])
