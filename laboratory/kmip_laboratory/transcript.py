"""The transcript: a begin mark and an end mark for each call, in the order in which they were seen.

It has one of two versions. The records of version 2 are sealed (`sealing`), and some of them are no marks; whoever
reads marks gets those of both as version 1 spells them.
"""

from __future__ import annotations

import io
import os
from typing import BinaryIO, Iterable, Iterator, NamedTuple, Optional, Union

from . import sealing, ttlv
from .records import read_file
from .sealing import Chain, NotSealed
from .trouble import Trouble
from .ttlv import Kind

HEADER = 0x540001
VERSION = 0x540002
BEGIN_MARK = 0x540010
CALL = 0x540011
CLIENT = 0x540012
MESSAGE = 0x540013
END_MARK = 0x540020
BEGIN_FRONT, END_FRONT = ttlv.front(BEGIN_MARK, Kind.STRUCTURE), ttlv.front(END_MARK, Kind.STRUCTURE)
CALL_FRONT, CLIENT_FRONT = ttlv.front(CALL, Kind.INTEGER), ttlv.front(CLIENT, Kind.TEXT)
MESSAGE_FRONT = ttlv.front(MESSAGE, Kind.BYTES)

FILE_HEADER = ttlv.structure(HEADER, ttlv.integer(VERSION, 1))
# What stands behind these of its bytes is padding, and may be anything.
TOLD_BYTES_OF_HEADER = 20
VERSION_ITEM = slice(8, TOLD_BYTES_OF_HEADER)
SEALED_VERSION_ITEM = ttlv.integer(VERSION, sealing.SEALED_VERSION)[:12]
MOST_CALLS = 100_000


class Begin(NamedTuple):
    """A begin mark: a request was whole, and had not gone on."""

    call: int
    client: str
    message: bytes


class End(NamedTuple):
    """An end mark: a response was whole, and had not gone on."""

    call: int
    message: bytes


Mark = Union[Begin, End]


class Torn(ValueError):
    """A record that ends with the file, ahead of its own end."""


class TornRecord(Trouble):
    """The file ends within a record, as that of a recorder that was killed."""


def spelled(mark: Mark) -> bytes:
    """The record that a mark is."""
    if isinstance(mark, Begin):
        return ttlv.structure(BEGIN_MARK, ttlv.integer(CALL, mark.call), ttlv.text(CLIENT, mark.client),
                              ttlv.byte_string(MESSAGE, mark.message))
    return ttlv.structure(END_MARK, ttlv.integer(CALL, mark.call), ttlv.byte_string(MESSAGE, mark.message))


def read_marks(path: str) -> list[Mark]:
    """The marks of a transcript, in their order."""
    return list(marks_in(path))


def marks_in(path: str) -> Iterator[Mark]:
    """The marks of a transcript, one after the other, so that the file need not be held."""
    return (mark for mark, _ in Reading(path).marks())


class Taken:
    """Numbers of calls that are taken: all from 1 on up to one, and some above."""

    def __init__(self) -> None:
        self._up_to = 0
        self._others: set[int] = set()

    def add(self, numbers: Iterable[int]) -> None:
        """Takes these too."""
        self._others.update(numbers)
        while self._up_to + 1 in self._others:
            self._up_to += 1
            self._others.remove(self._up_to)

    def has(self, number: int) -> bool:
        """Whether this one is taken."""
        return 0 < number <= self._up_to or number in self._others


class Reading:
    """A transcript that is read from its header on. `chain` is what is known of a sealed one as far as it was read, and
    None of one of version 1; `length` is where the last whole record ends."""

    def __init__(self, path: str, before: Optional[Reading] = None, data: Optional[bytes] = None) -> None:
        """`before` is the segment behind which this one has to go on, once it was read; `data` are the bytes of the
        file, where that was read."""
        self.path = path
        self._data = data
        self.chain: Optional[Chain] = None
        self.length = 0
        self.last_call = 0
        self.open_calls: set[int] = set()
        self.calls = 0
        self._last = before.chain if before else None
        # The calls that began, and whether they ended. One that stays open in its segment ends in no other.
        self._begun: dict[int, bool] = {}
        self._taken = before.taken() if before else Taken()

    def taken(self) -> Taken:
        """The numbers of the calls in it, and in those before it."""
        self._taken.add(self._begun)
        return self._taken

    def marks(self) -> Iterator[tuple[Mark, bytes]]:
        """Its marks, each with its record as version 1 has it. Tells where the file is not what it should be: an end
        for a call that began, and once; and of a sealed one each record the next of an unbroken run."""
        return (found for found in self.records() if found is not None)

    def records(self) -> Iterator[Optional[tuple[Mark, bytes]]]:
        """The same, with None for each record of a sealed one that is no mark."""
        try:
            with self._opened() as file:
                self._read_header(file)
                while front := file.read(ttlv.HEADER_LENGTH):
                    record = _record(file, front, self.path, self.length)
                    yield self._found(record)
                    self.length += len(record)
        except OSError as error:
            raise Trouble(f"{self.path} can't be read: {error.strerror}") from None

    def _opened(self) -> BinaryIO:
        return open(self.path, "rb") if self._data is None else io.BytesIO(self._data)

    def _read_header(self, file: BinaryIO) -> None:
        front = file.read(len(FILE_HEADER))
        fault = _fault_of_header(front)
        if fault and _is_of_sealed(front):
            length = min(ttlv.HEADER_LENGTH + int.from_bytes(front[4:8], "big"), ttlv.LONGEST_ITEM)
            record = front + file.read(max(0, length - len(front)))
            self.chain = self._chain_behind(record)
            self.length = len(record)
        elif fault:
            raise Trouble(f"{self.path} is no transcript: {fault}; give one that `kmip_record proxy` or `keylog` made")
        else:
            self.length = len(FILE_HEADER)

    def _chain_behind(self, record: bytes) -> Chain:
        try:
            header = sealing.read_header(record)
        except NotSealed as told:
            raise Trouble(f"{self.path} is no transcript: {told}") from None
        last = self._last
        if last and header != sealing.next_header(last):
            raise Trouble(f"{self.path} does not go on where the file before it ends: it is segment {header.segment} "
                          f"of {header.recording} behind {header.previous.hex()}, and segment {last.header.segment + 1}"
                          f" of {last.header.recording} behind {last.seal.hex()} is expected. Something is missing "
                          "between them, or they are not in their order")
        return Chain(header, last.moment if last else None)

    def _found(self, record: bytes) -> Optional[tuple[Mark, bytes]]:
        """The mark that this record is, with its record; None where a sealed one is another."""
        bare = record
        if self.chain:
            try:
                bare = self.chain.take(record)
            except NotSealed as told:
                raise Trouble(f"{self.path} is broken at offset {self.length}: {told}; what stands ahead of it is as "
                              f"it was sealed, {self.chain.records} records") from None
            if int.from_bytes(record[:3], "big") not in sealing.MARKS:
                return None
        mark = _mark_of(bare, self._begun, self.path, self.length)
        if self._taken.has(mark.call):
            raise _twice(self.path, self.length, mark.call)
        if self.chain and spelled(mark) != bare:
            raise Trouble(f"{self.path} has a mark at offset {self.length} with other fields or padding; it was not "
                          "made by a recorder")
        self._count(mark)
        return mark, bare

    def _count(self, mark: Mark) -> None:
        self.last_call = max(self.last_call, mark.call)
        if isinstance(mark, Begin):
            self.calls += 1
            self.open_calls.add(mark.call)
        else:
            self.open_calls.discard(mark.call)


def _is_of_sealed(front: bytes) -> bool:
    """Whether these first bytes of a file begin the header of a sealed transcript."""
    return front[:4] == FILE_HEADER[:4] and front[VERSION_ITEM] == SEALED_VERSION_ITEM


def has_whole_header(path: str) -> bool:
    """Whether a file is long enough for the header of the version that it says to have."""
    with open(path, "rb") as file:
        front = file.read(len(FILE_HEADER))
        length = ttlv.HEADER_LENGTH + int.from_bytes(front[4:8], "big") if _is_of_sealed(front) else len(FILE_HEADER)
        return os.fstat(file.fileno()).st_size >= length


def read_unsealed(path: str) -> tuple[bytes, Optional[Chain]]:
    """The bytes of a file, and of a sealed transcript those of its marks as one of version 1, with what is known of
    it."""
    data = read_file(path)
    if not _is_of_sealed(data[:len(FILE_HEADER)]):
        return data, None
    reading = Reading(path, data=data)
    made = b"".join([FILE_HEADER, *(record for _, record in reading.marks())])
    return made, reading.chain


def _fault_of_header(front: bytes) -> Optional[str]:
    """Why these first bytes of a file are no header of a transcript, if they are none. Behind a torn one nothing stands
    that a cut could leave."""
    if not front:
        return "it is empty"
    if len(front) < len(FILE_HEADER) and FILE_HEADER.startswith(front):
        return f"it has the first {len(front)} bytes of the header of one, and nothing else"
    told = front[:TOLD_BYTES_OF_HEADER] == FILE_HEADER[:TOLD_BYTES_OF_HEADER]
    return None if told and len(front) == len(FILE_HEADER) else "at offset 0 there is no header of one"


def _record(file: BinaryIO, front: bytes, path: str, place: int) -> bytes:
    """The bytes of the record that begins with these, behind the header."""
    try:
        if len(front) < ttlv.HEADER_LENGTH:
            raise Torn("its header is torn")
        length = ttlv.outermost_length(front)
        record = front + file.read(length - ttlv.HEADER_LENGTH)
        if len(record) < length:
            raise Torn(f"an item of {length} bytes, in {len(record)}")
        return record
    except Torn as fault:
        raise TornRecord(f"{path} has no whole record at offset {place}: {fault}. Where the recorder was killed "
                      f"while it wrote there, `truncate -s {place} {path}` leaves the marks before") from None
    except ttlv.NotTtlv as fault:
        raise Trouble(f"{path} has no record at offset {place}: {fault}; it is no transcript, or was damaged") from None


def _mark_of(record: bytes, begun: dict[int, bool], path: str, place: int) -> Mark:
    """The mark that a record is. `begun` has the calls that began, and whether they ended."""
    try:
        mark = _read_mark(record)
    except ttlv.NotTtlv as fault:
        raise Trouble(f"{path} has no record at offset {place}: {fault}; it is no transcript, or was damaged") from None
    if mark is None:
        raise Trouble(f"{path} has a record that is no mark at offset {place}; it is no transcript, or was damaged")
    if isinstance(mark, Begin) == (mark.call in begun) or begun.get(mark.call, False):
        raise _twice(path, place, mark.call)
    begun[mark.call] = isinstance(mark, End)
    return mark


def _twice(path: str, place: int, call: int) -> Trouble:
    return Trouble(f"{path} has at offset {place} a second begin mark of call {call}, or an end mark of a call that is "
                   "not under way; it is no transcript, or was damaged")


def _read_mark(record: bytes) -> Optional[Mark]:
    """The mark that a record is, read by its headers alone, since there are many of them."""
    (outer, start, length), = ttlv.places_in(record, 0, len(record))
    call = client = message = None
    for front, place, size in ttlv.places_in(record, start, start + length):
        if front == CALL_FRONT and size == 4:
            call = int.from_bytes(record[place:place + 4], "big", signed=True)
        elif front == MESSAGE_FRONT:
            message = record[place:place + size]
        elif front == CLIENT_FRONT:
            client = record[place:place + size].decode("utf-8", "replace")
    if call is None or message is None:
        return None
    if outer == BEGIN_FRONT and client is not None:
        return Begin(call, client, message)
    return End(call, message) if outer == END_FRONT else None
