"""A certificate in DER, as far as a recorder needs to read one: its common name, and by what it is known again."""

from __future__ import annotations

import hashlib
import ssl
from typing import Iterator, NamedTuple, Optional

VERSION = 0xA0
COMMON_NAME = bytes.fromhex("550403")
# Of a certificate's body: serial number, algorithm, issuer and validity stand ahead of the subject.
FIELDS_AHEAD_OF_SUBJECT = 4
# How the kinds of texts are spelled; all others have a byte for each character.
SPELLINGS = {0x0C: "utf-8", 0x1C: "utf-32-be", 0x1E: "utf-16-be"}


class Shown(NamedTuple):
    """What is kept of a certificate: its common name, and its SHA-256 in hexadecimal digits."""

    common_name: Optional[str]
    digest: str


def shown_on(made: ssl.SSLSocket) -> Shown:
    """The certificate of the other end of a connection whose handshake is over. Python's own reading of one refuses
    what an authority signs without a look, as a name that is no text."""
    certificate = made.getpeercert(True) or b""
    return Shown(common_name(certificate), hashlib.sha256(certificate).hexdigest())


def common_name(certificate: bytes) -> Optional[str]:
    """The common name of the subject; None where it has none, or where these bytes are no certificate."""
    try:
        (_, whole), = _elements(certificate)
        body = [(kind, value) for kind, value in _elements(next(_elements(whole))[1]) if kind != VERSION]
        return _name_in(body[FIELDS_AHEAD_OF_SUBJECT][1])
    except (IndexError, ValueError, StopIteration):
        return None


def _name_in(subject: bytes) -> Optional[str]:
    for _, part in _elements(subject):
        for _, pair in _elements(part):
            (_, attribute), (kind, value) = _elements(pair)
            if attribute == COMMON_NAME:
                return value.decode(SPELLINGS.get(kind, "latin-1"), "replace")
    return None


def _elements(data: bytes) -> Iterator[tuple[int, bytes]]:
    """The elements that stand one behind the other, each as its type and its value."""
    place = 0
    while place < len(data):
        kind, length = data[place], data[place + 1]
        place += 2
        if length & 0x80:
            digits = length & 0x7F
            length = int.from_bytes(data[place:place + digits], "big")
            place += digits
        if place + length > len(data):
            raise ValueError("an element that runs past its end")
        yield kind, data[place:place + length]
        place += length
