"""Sealed transcripts, spelled by hand from what docs/FORMATS.md says of version 2."""

from __future__ import annotations

import hashlib
import re
from pathlib import Path
from typing import Sequence

from messages import item, number, structure, text

RECORDING = "7b0c"
MOMENT = 1_700_000_000_000_000
NOTE = re.compile(rb"\x54\x00\x16\x05\x00\x00\x00\x04\x00\x00\x00(.)\x00{4}\x54\x00\x17\x07....([^\x00]*)", re.DOTALL)


def header(segment: int = 1, previous: bytes = bytes(32), recording: str = RECORDING) -> bytes:
    """The header of a segment."""
    return structure(0x540001, number(0x540002, 2, 2), text(0x540004, recording), number(0x540005, 2, segment),
                     item(0x540006, 8, previous))


def begin(call: int, message: bytes, client: str = "a") -> tuple[int, bytes]:
    """The tag and the fields of a begin mark, ahead of its moment."""
    return 0x540010, number(0x540011, 2, call) + text(0x540012, client) + item(0x540013, 8, message)


def end(call: int, message: bytes) -> tuple[int, bytes]:
    """Those of an end mark."""
    return 0x540020, number(0x540011, 2, call) + item(0x540013, 8, message)


def note(kind: int, words: str) -> tuple[int, bytes]:
    """Those of a note."""
    return 0x540021, number(0x540016, 5, kind) + text(0x540017, words)


def close(records: int) -> tuple[int, bytes]:
    """Those of a close."""
    return 0x540022, number(0x540018, 2, records)


def sealed(first: bytes, records: Sequence[tuple[int, bytes]], moments: Sequence[int] = ()) -> list[bytes]:
    """The header and the records, each with its moment, one microsecond behind the one before unless these are given,
    and its seal."""
    before, made = hashlib.sha256(first).digest(), [first]
    for place, (tag, fields) in enumerate(records):
        moment = moments[place] if moments else MOMENT + place
        fields += number(0x540014, 11, moment, 8)
        front = tag.to_bytes(3, "big") + b"\x01" + (len(fields) + 40).to_bytes(4, "big")
        ahead = front + fields + bytes.fromhex("5400150800000020")
        before = hashlib.sha256(before + ahead).digest()
        made.append(ahead + before)
    return made


def notes(path: Path) -> list[tuple[int, str]]:
    """The kinds and texts of a file's notes."""
    return [(found[1][0], found[2].decode()) for found in NOTE.finditer(path.read_bytes())]
