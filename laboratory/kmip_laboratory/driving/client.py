"""A client: a connection of its own, calls as its plan has them, and what befalls them."""

from __future__ import annotations

import contextlib
import socket
import ssl
import struct
import threading
import time
from collections import Counter
from typing import Counter as Counted, NamedTuple, Optional

from .. import message, tls, ttlv
from ..address import Address
from ..glimpse import SUCCESS, UNDONE, glimpse, identifiers
from ..message import Side
from ..trouble import ConnectionTrouble, Trouble
from .cuts import Cut, Cuts
from .incoming import Incoming
from .known import Known
from .marks import Marks
from .messages import Ask, Request, Version
from .numbers import Operation
from .plan import Plan, PlannedCall
from .requests import write_request

NAMES = {operation.value: operation.name for operation in Operation}
CAME_TO: dict[Optional[int], str] = {SUCCESS: "done", UNDONE: "undone"}
# The last version in which the items of a batch have no order unless that is asked for.
LAST_WITHOUT_ORDER = (1, 2)
MOST_BREAKS_IN_A_ROW = 5
SECONDS_AFTER_A_BREAK = 0.1
SLOW_PIECE = 16
SECONDS_OF_SLOWNESS = 0.002
LINGER_AND_RESET = struct.pack("ii", 1, 0)


class CutOff(Exception):
    """The client itself broke the connection, in this way."""

    def __init__(self, cut: Cut) -> None:
        super().__init__(cut.value)
        self.cut = cut


class Budget:
    """So many calls, or so many seconds, for all clients together; and how many of them are left."""

    def __init__(self, calls: Optional[int], seconds: Optional[float], clients: int) -> None:
        self._lock = threading.Lock()
        self._calls = calls
        self._until = None if seconds is None else time.monotonic() + seconds
        self.taken = 0
        self.clients = clients
        self.stopped = False

    def take(self) -> bool:
        """Whether there is one more call to make."""
        with self._lock:
            over = self.stopped or (self._calls is not None and self.taken >= self._calls)
            if over or (self._until is not None and time.monotonic() >= self._until):
                return False
            self.taken += 1
            return True

    def may_end(self) -> bool:
        """Whether a client may go; the last one stays."""
        with self._lock:
            if self.clients == 1:
                return False
            self.clients -= 1
            return True


class Way(NamedTuple):
    """How all clients go about it: to which server, in which version, what befalls their calls, the seconds that an
    answer is waited for, and the mean seconds between two calls."""

    server: Address
    context: ssl.SSLContext
    version: Version
    cuts: Cuts
    patience: float
    pause: float


class Client(threading.Thread):
    """Makes calls until the budget is spent, or until the server is no longer there."""

    def __init__(self, number: int, way: Way, plan: Plan, known: Known, marks: Marks, budget: Budget) -> None:
        super().__init__(daemon=True, name=f"client-{number}")
        self._way, self._plan, self._known, self._marks, self._budget = way, plan, known, marks, budget
        self._socket: Optional[ssl.SSLSocket] = None
        self._incoming: Optional[Incoming] = None
        self._slow = False
        self.counts: Counted[str] = Counter()
        self.failure: Optional[BaseException] = None

    def run(self) -> None:
        """All calls."""
        try:
            self._make_calls()
        except BaseException as failure:  # pylint: disable=broad-exception-caught
            self.failure = failure
            self._budget.stopped = True
        finally:
            self._drop()

    def _make_calls(self) -> None:
        breaks = 0
        for planned in self._plan.calls():
            if not self._budget.take():
                return
            cut = self._way.cuts.of(planned.luck)
            if self._way.pause:
                time.sleep(2 * planned.pause * self._way.pause)
            try:
                self._call(planned, cut)
                breaks = 0
            except CutOff as broken:
                self.counts[broken.cut.value] += 1
                self._drop(reset=planned.where < 0.5)
            except (OSError, EOFError, ConnectionTrouble) as trouble:
                self.counts["broken by the server"] += 1
                self._drop()
                breaks += 1
                if breaks == MOST_BREAKS_IN_A_ROW:
                    told = tls.meaning(trouble) if isinstance(trouble, OSError) else trouble
                    raise Trouble(f"{self.name} can't go on with the server at {self._way.server}: {told}") from None
                time.sleep(SECONDS_AFTER_A_BREAK)
            if cut is Cut.END and self._budget.may_end():
                self.counts[cut.value] += 1
                return

    def _reach(self) -> ssl.SSLSocket:
        if self._socket is None:
            plain = socket.create_connection(self._way.server, timeout=self._way.patience)
            plain.setsockopt(socket.IPPROTO_TCP, socket.TCP_NODELAY, 1)
            self._socket = self._way.context.wrap_socket(plain)
            self._incoming = Incoming(self._socket)
            self.counts["connections"] += 1
        return self._socket

    def _drop(self, reset: bool = False) -> None:
        """Closes the connection; a reset is what a killed client leaves."""
        if self._socket is not None:
            with contextlib.suppress(OSError, ValueError):
                if reset:
                    self._socket.setsockopt(socket.SOL_SOCKET, socket.SO_LINGER, LINGER_AND_RESET)
                self._socket.close()
            self._socket = None

    def _call(self, planned: PlannedCall, cut: Optional[Cut]) -> None:
        asks = [self._known.ask(item) for item in planned.items]
        request = write_request(Request(self._way.version, tuple(asks), planned.option, self._order_of(planned)))
        server = self._reach()
        if cut is Cut.BEFORE_SENDING:
            raise CutOff(cut)
        if cut is Cut.IN_REQUEST:
            server.sendall(request[:1 + int(planned.where * (len(request) - 1))])
            raise CutOff(cut)
        call = self._marks.begin(self.name, request)
        server.sendall(request)
        for ask in asks:
            self.counts[f"{NAMES[ask.operation]} asked"] += 1
        if cut is Cut.AFTER_SENDING:
            self.counts["open calls"] += 1
            raise CutOff(cut)
        response = self._answer(cut, planned.where)
        self._marks.end(call, response)
        self._learn(asks, response)

    def _order_of(self, planned: PlannedCall) -> Optional[bool]:
        """What the request says of the order of its items. Up to 1.2 a batch that says nothing has none, so that the ID
        Placeholder would mean nothing in it."""
        if planned.ordered is None and len(planned.items) > 1 and self._way.version <= LAST_WITHOUT_ORDER:
            return True
        return planned.ordered

    def _answer(self, cut: Optional[Cut], where: float) -> bytes:
        """The whole response."""
        try:
            self._slow = cut is Cut.SLOW
            header = self._receive(ttlv.HEADER_LENGTH)
            length = message.announced_length(header, Side.SERVER) - ttlv.HEADER_LENGTH
            if cut is Cut.IN_ANSWER:
                self._receive(int(where * length))
                self.counts["open calls"] += 1
                raise CutOff(cut)
            if self._slow:
                self.counts[Cut.SLOW.value] += 1
            return header + self._receive(length)
        except (OSError, EOFError, ConnectionTrouble):
            self.counts["open calls"] += 1
            raise

    def _receive(self, length: int) -> bytes:
        received, incoming = b"", self._incoming
        while len(received) < length:
            left = length - len(received)
            size = (min(left, SLOW_PIECE), SLOW_PIECE) if self._slow else (left,)
            piece = incoming.receive(*size) if incoming else None
            if piece is None:
                raise EOFError("it closed the connection in place of an answer")
            received += piece
            if self._slow:
                time.sleep(SECONDS_OF_SLOWNESS)
        return received

    def _learn(self, asks: list[Ask], response: bytes) -> None:
        seen = glimpse(response, Side.SERVER)
        if seen is None or seen.stamp is None or not seen.parts:
            self.counts["answers that were not understood"] += 1
            return
        if len(seen.parts) == 1 and seen.parts[0].operation is None:
            self.counts["refused messages"] += 1
            return
        for ask, part in zip(asks, seen.parts):
            self.counts[f"{NAMES[ask.operation]} {CAME_TO.get(part.status, 'failed')}"] += 1
        self._known.learn(asks, seen.stamp, [(part, identifiers(response, part)) for part in seen.parts])
