"""The word `keylog`: a transcript from a packet capture and the TLS key log of a client or of the server.

A begin mark stands where the packet with the last byte of a request went by, an end mark where that with the last
byte of a response did. That is sound where all packets were seen at one place on the way, in the order of the
capture.
"""

from __future__ import annotations

import hashlib
from collections import deque
from typing import Callable, Deque, Optional, Protocol

from .. import certificate, message
from ..address import Address
from ..message import Side
from ..paths import shown
from ..plain import plain
from ..sealing import NoteKind
from ..trouble import ConnectionTrouble, Trouble, say
from ..ttlv import HEADER_LENGTH
from .gaps import have_gap
from .packets import Packet, read_packets
from .recording import Recording, tell_account

PIECE = 1 << 20


class Marks(Protocol):
    """Where marks go."""

    def begin(self, client: str, request: bytes) -> int:
        """Marks a request, and answers the number of its call."""

    def end(self, call: int, response: bytes) -> None:
        """Marks the response to a call."""

    def note(self, kind: NoteKind, text: str) -> None:
        """Notes something, where that is done."""


class Stream:
    """One connection of the capture: what of it is not yet a whole message, and which calls are unanswered."""

    def __init__(self, client: Address) -> None:
        self.name = str(client)
        self.broken = False
        self._known = f"{client}, no certificate seen"
        self._is_noted = False
        self._open: Deque[int] = deque()
        self._torn: dict[Side, bytes] = {Side.CLIENT: b"", Side.SERVER: b""}

    def take(self, packet: Packet, recording: Marks) -> None:
        """Marks the messages that this packet completes."""
        side = Side.CLIENT if packet.by_client else Side.SERVER
        if packet.certificate and packet.by_client:
            name = certificate.common_name(packet.certificate)
            digest = hashlib.sha256(packet.certificate).hexdigest()
            self._known = f"{packet.client}, certificate SHA-256 {digest}, name {plain(name or 'none')}"
            self.name = name or self.name
        self._torn[side] += packet.sent
        while (whole := self._next_message(side)) is not None:
            if side is Side.CLIENT:
                self._note(recording)
                self._open.append(recording.begin(self.name, whole))
            elif self._open:
                recording.end(self._open.popleft(), whole)
            else:
                raise ConnectionTrouble("the server sent a response without a request")

    def end(self, recording: Marks, why: ConnectionTrouble) -> None:
        """Notes that the rest of it is left out."""
        self.broken = True
        recording.note(NoteKind.ENDED, f"{self._known}: {why}; the rest of it is left out")

    def _note(self, recording: Marks) -> None:
        """Notes who it is, ahead of the first request."""
        if not self._is_noted:
            self._is_noted = True
            recording.note(NoteKind.CONNECTION, self._known)

    def _next_message(self, side: Side) -> Optional[bytes]:
        torn = self._torn[side]
        if len(torn) < HEADER_LENGTH:
            return None
        length = message.announced_length(torn[:HEADER_LENGTH], side)
        if len(torn) < length:
            return None
        self._torn[side] = torn[length:]
        message.see(torn[:length], side)
        return torn[:length]


class Rehearsal:
    """Counts calls as a recording does, and knows at the end which of them were not answered."""

    def __init__(self) -> None:
        self._calls = 0
        self.unanswered: set[int] = set()

    def begin(self, client: str, request: bytes) -> int:
        """A request."""
        self._calls += 1
        self.unanswered.add(self._calls)
        return self._calls

    def end(self, call: int, response: bytes) -> None:
        """The answer to a call."""
        self.unanswered.remove(call)

    def note(self, kind: NoteKind, text: str) -> None:
        """Nothing is noted."""


class Moment:
    """A clock that shows the Time Stamp of the last answer, since a capture is read faster than it was made."""

    def __init__(self) -> None:
        self.now = 0.0

    def __call__(self) -> float:
        return self.now


Record = Callable[[Callable[[], float], frozenset[int]], Recording]


def run(capture: str, keylog: str, server: Address, record: Record) -> None:
    """Writes the transcript, and tells of it."""
    packets = read_packets(capture, keylog, server)
    _see_that_all_is_there(packets, capture, keylog)
    rehearsal, clock = Rehearsal(), Moment()
    _take_all(packets, rehearsal, lambda words: None)
    with record(clock, frozenset(rehearsal.unanswered)) as recording:
        recording.note(NoteKind.WORDS, f"made from the capture {plain(shown(capture))}, SHA-256 {_digest(capture)}: "
                       "the moments are those of the making")
        _take_all(packets, _Timed(recording, clock), say)
        tell_account(recording)


def _digest(path: str) -> str:
    """SHA-256 of a file, which may be too long to be held."""
    made = hashlib.sha256()
    try:
        with open(path, "rb") as file:
            while piece := file.read(PIECE):
                made.update(piece)
    except OSError as error:
        raise Trouble(f"{shown(path)} can't be read: {error.strerror}") from None
    return made.hexdigest()


class _Timed:
    """A recording whose clock goes with the answers."""

    def __init__(self, recording: Recording, clock: Moment) -> None:
        self._recording = recording
        self._clock = clock
        self.begin = recording.begin
        self.note = recording.note

    def end(self, call: int, response: bytes) -> None:
        """The answer to a call, at its moment."""
        self._clock.now = max(self._clock.now, message.time_stamp(response) or 0)
        self._recording.end(call, response)


def _take_all(packets: list[Packet], marks: Marks, tell: Callable[[str], None]) -> None:
    streams: dict[int, Stream] = {}
    for packet in packets:
        stream = streams.setdefault(packet.stream, Stream(packet.client))
        if stream.broken:
            continue
        try:
            stream.take(packet, marks)
        except ConnectionTrouble as trouble:
            stream.end(marks, trouble)
            tell(f"{stream.name}, stream {packet.stream} of the capture: {trouble}; the rest of it is left out")


def _see_that_all_is_there(packets: list[Packet], capture: str, keylog: str) -> None:
    """A transcript without some of the calls would be judged wrongly, so none is made."""
    if have_gap((packet.stream, packet.by_client, packet.span) for packet in packets if packet.span):
        raise Trouble(f"packets to or from the server are missing in {capture}: capture again, with a larger buffer "
                      "(`dumpcap -B 64`)")
    clients = sorted({str(packet.client) for packet in packets if packet.hidden})
    if clients:
        raise Trouble(f"what {', '.join(clients)} said can't be read: {keylog} has not the secrets of that "
                      f"connection, or it began ahead of {capture}. Start the capture and the key log first")
