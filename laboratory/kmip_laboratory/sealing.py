"""Transcripts of version 2: each record ends with a seal, which says what stands ahead of it in the file.

A seal is SHA-256 over the seal before and the record's bytes ahead of its own; that of the header, which bears none, is
SHA-256 over all its bytes. So a record that is changed, left out, doubled or moved turns every seal behind it, and the
last seal of a file, its *head*, stands for the whole file. The header has the head of the segment before it.
"""

from __future__ import annotations

import hashlib
import time
from enum import IntEnum
from typing import NamedTuple, Optional

from . import ttlv
from .tags import FileTag
from .ttlv import HEADER, HEADER_LENGTH, Kind

SEALED_VERSION = 2
SEAL_LENGTH = 32
# Ahead of the first segment there is none.
NO_SEAL = bytes(SEAL_LENGTH)
MOMENT_FRONT = HEADER.pack(ttlv.front(FileTag.MOMENT, Kind.DATE_TIME_EXTENDED), 8)
SEAL_FRONT = HEADER.pack(ttlv.front(FileTag.SEAL, Kind.BYTES), SEAL_LENGTH)
# What a sealed record has behind its other fields: its moment and its seal.
TAIL_LENGTH = len(MOMENT_FRONT) + 8 + len(SEAL_FRONT) + SEAL_LENGTH
HEADER_FRONTS = [ttlv.front(FileTag.VERSION, Kind.INTEGER), ttlv.front(FileTag.RECORDING, Kind.TEXT),
                 ttlv.front(FileTag.SEGMENT, Kind.INTEGER), ttlv.front(FileTag.PREVIOUS, Kind.BYTES)]
MARKS = (FileTag.BEGIN_MARK, FileTag.END_MARK)


class NoteKind(IntEnum):
    """What a note tells."""

    CONNECTION = 1
    ENDED = 2
    NOT_RECORDED = 3
    RESUMED = 4
    WORDS = 5


class NotSealed(ValueError):
    """These bytes are not the next record of a sealed transcript; the text says why."""


class Header(NamedTuple):
    """The header: which recording, which of its segments from 1 on, and the head of the segment before it."""

    recording: str
    segment: int
    previous: bytes


def spelled_header(header: Header) -> bytes:
    """The bytes of a header."""
    return ttlv.structure(
        FileTag.TRANSCRIPT_HEADER, ttlv.integer(FileTag.VERSION, SEALED_VERSION),
        ttlv.text(FileTag.RECORDING, header.recording), ttlv.integer(FileTag.SEGMENT, header.segment),
        ttlv.byte_string(FileTag.PREVIOUS, header.previous))


def read_header(record: bytes) -> Header:
    """The header that these bytes are, spelled as a recorder spells it."""
    try:
        fields = ttlv.read_item(record).children()
    except ttlv.NotTtlv as fault:
        raise NotSealed(f"its header is no item: {fault}") from None
    if [ttlv.front(field.tag, field.kind) for field in fields] != HEADER_FRONTS:
        raise NotSealed("its header has not version, recording, segment and previous seal")
    header = Header(*(field.value for field in fields[1:]))
    if spelled_header(header) != record or len(header.previous) != SEAL_LENGTH or header.segment < 1:
        raise NotSealed("its header has a segment below 1, a previous seal that is not of 32 bytes, or another version "
                        "or padding")
    if (header.segment == 1) != (header.previous == NO_SEAL):
        raise NotSealed("its header is that of a first segment with a seal before it, or of a later one without")
    return header


def note(kind: NoteKind, text: str) -> bytes:
    """A note, which is still to be sealed."""
    return ttlv.structure(FileTag.NOTE, ttlv.enumeration(FileTag.NOTE_KIND, kind), ttlv.text(FileTag.NOTE_TEXT, text))


def close(records: int) -> bytes:
    """The close behind so many records, which is still to be sealed."""
    return ttlv.structure(FileTag.CLOSE, ttlv.integer(FileTag.RECORDS, records))


def sealed(record: bytes, moment: int, before: bytes) -> bytes:
    """The record with its moment, in microseconds since 1970, and the seal that it has behind the seal `before`."""
    content = record[HEADER_LENGTH:] + MOMENT_FRONT + moment.to_bytes(8, "big", signed=True) + SEAL_FRONT
    ahead = record[:4] + (len(content) + SEAL_LENGTH).to_bytes(4, "big") + content
    return ahead + hashlib.sha256(before + ahead).digest()


def unsealed(record: bytes) -> bytes:
    """The record without its moment and its seal."""
    content = record[HEADER_LENGTH:-TAIL_LENGTH]
    return record[:4] + len(content).to_bytes(4, "big") + content


def moment_of(record: bytes) -> Optional[int]:
    """The moment of a sealed record; None where its end is none of a sealed one."""
    tail = record[-TAIL_LENGTH:]
    fronts = tail[:HEADER_LENGTH] == MOMENT_FRONT and tail[16:16 + HEADER_LENGTH] == SEAL_FRONT
    if len(record) < HEADER_LENGTH + TAIL_LENGTH or not fronts:
        return None
    return int.from_bytes(tail[HEADER_LENGTH:16], "big", signed=True)


def now() -> int:
    """The moment by this machine's clock, in microseconds since 1970."""
    return time.time_ns() // 1000


class Chain:
    """An unbroken run of records behind a header: what it is known by, and what may come next."""

    def __init__(self, header: Header, moment: Optional[int] = None) -> None:
        """`moment` is the last one of the segment before, where there is one."""
        self.header = header
        self.seal = hashlib.sha256(spelled_header(header)).digest()
        self.moment = moment
        self.records = 0
        self.notes = 0
        self.is_closed = False

    def sealed(self, record: bytes) -> bytes:
        """The record as it is to stand next. A clock that was set back gives the moment of the record before."""
        moment = now()
        return sealed(record, moment if self.moment is None else max(moment, self.moment), self.seal)

    def follow(self, record: bytes) -> None:
        """Goes on behind a record that was made by `sealed`."""
        self.seal = record[-SEAL_LENGTH:]
        self.moment = moment_of(record)
        tag = int.from_bytes(record[:3], "big")
        self.is_closed = tag == FileTag.CLOSE
        self.records += tag != FileTag.CLOSE
        self.notes += tag == FileTag.NOTE

    def take(self, record: bytes) -> bytes:
        """Goes on behind a record that was read, and answers it without its seal; refused where it can't stand next."""
        moment = moment_of(record)
        if self.is_closed:
            raise NotSealed("a record stands behind the close")
        if moment is None:
            raise NotSealed("a record does not end with its moment and its seal")
        if hashlib.sha256(self.seal + record[:-SEAL_LENGTH]).digest() != record[-SEAL_LENGTH:]:
            raise NotSealed("a seal is not that of its record and the seal before: something was changed, left out, "
                            "doubled or moved here, or right ahead of it")
        if self.moment is not None and moment < self.moment:
            raise NotSealed(f"a moment, {moment}, is below the one before, {self.moment}")
        bare = unsealed(record)
        if record[3] != Kind.STRUCTURE or int.from_bytes(record[:3], "big") not in MARKS:
            self._see_note_or_close(bare)
        self.follow(record)
        return bare

    def _see_note_or_close(self, bare: bytes) -> None:
        if bare == close(self.records):
            return
        try:
            item = ttlv.read_item(bare)
        except ttlv.NotTtlv as fault:
            raise NotSealed(f"a record is no item: {fault}") from None
        if item.tag == FileTag.CLOSE:
            raise NotSealed(f"the close does not tell the number of records ahead of it, which is {self.records}")
        kind, text = item.first(FileTag.NOTE_KIND, Kind.ENUMERATION), item.first(FileTag.NOTE_TEXT, Kind.TEXT)
        if item.tag != FileTag.NOTE or not kind or not text or kind.value not in list(NoteKind) or (
                bare != note(NoteKind(kind.value), text.value)):
            raise NotSealed("a record is neither a mark nor a note nor a close")


def next_header(chain: Chain) -> Header:
    """The header of the segment that goes on behind this one, once it is closed."""
    return Header(chain.header.recording, chain.header.segment + 1, chain.seal)
