"""The simulated key server on its socket: clients at once, such that are slow or go, and calls that wait."""

from __future__ import annotations

import contextlib
import io
import socket
import ssl
import time
import unittest
from typing import Optional

import messages
import stub
from laboratory import SECONDS, Laboratory, wait_until

from kmip_laboratory import tls
from kmip_laboratory.driving.engine import Engine, Steps
from kmip_laboratory.driving.messages import Request, Response
from kmip_laboratory.driving.server import Server
from kmip_laboratory.driving.store import Clock

SECONDS_OF_A_WAIT = 5.0
SIZE_OF_LARGE = 600_000
ASKED_MORE_THAN_FITS = 12


class Waiting(Engine):
    """A Get of `late` waits ahead of its effect, and one of `fault` is more than the engine can bear."""

    done: list[str]

    def __init__(self) -> None:
        super().__init__(Clock())
        self.done = []

    def answer(self, request: Request, session: dict[str, Optional[str]]) -> Steps:
        asked = request.asks[0].identifier or ""
        if asked == "late":
            yield SECONDS_OF_A_WAIT
        if asked == "fault":
            raise ZeroDivisionError("the engine broke down")
        response: Response = self.take(request, session)
        self.done.append(asked)
        return response


def identifier_of(response: bytes) -> str:
    """The first Unique Identifier in a response."""
    start = response.index(bytes.fromhex("42009407")) + 8
    length = int.from_bytes(response[start - 4:start], "big")
    return response[start:start + length].decode()


def register(value: bytes) -> bytes:
    """A request to keep a secret."""
    block = messages.structure(0x420040, messages.number(0x420042, 5, 2),
                               messages.structure(0x420045, messages.item(0x420043, 8, value)))
    secret = messages.structure(0x420085, messages.number(0x420086, 5, 1), block)
    return messages.request(messages.asking(3, messages.number(0x420057, 5, 7), messages.structure(0x420125), secret))


class OnItsSocket(Laboratory):
    """Each test has a server of its own."""

    def setUp(self) -> None:
        super().setUp()
        self.engine = Waiting()
        files = [str(self.certificates / name) for name in ("server.pem", "server.key", "authority.pem")]
        self.server = Server(self.engine, tls.toward_clients(*files))
        self.addCleanup(self.server.close)

    def reached(self) -> ssl.SSLSocket:
        """A client's connection to it."""
        return self.client(self.server.port)

    def test_requests_come_in_pieces_and_together(self) -> None:
        client = self.reached()
        asked = messages.get("k")
        for piece in (asked[:5], asked[5:30], asked[30:]):
            client.sendall(piece)
            time.sleep(0.02)
        self.assertIn(messages.number(0x42007F, 5, 1), stub.receive(client))
        client.sendall(messages.get("first") + messages.get("second") + messages.get("third")[:20])
        self.assertTrue(stub.receive(client) and stub.receive(client))
        client.sendall(messages.get("third")[20:])
        self.assertTrue(stub.receive(client))
        self.assertEqual(self.engine.done, ["k", "first", "second", "third"])

    def test_older_tls_is_spoken_too(self) -> None:
        plain = socket.create_connection(("127.0.0.1", self.server.port), timeout=SECONDS)
        client = stub.context(self.certificates, "client-2", False, newest=False).wrap_socket(plain)
        self.addCleanup(client.close)
        client.sendall(messages.get("k"))
        self.assertTrue(stub.receive(client))

    def test_who_says_nothing_holds_nobody_up(self) -> None:
        silent = socket.create_connection(("127.0.0.1", self.server.port), timeout=SECONDS)
        self.addCleanup(silent.close)
        half = self.reached()
        half.sendall(messages.get("half")[:40])
        client = self.reached()
        client.sendall(messages.get("k"))
        self.assertTrue(stub.receive(client))
        self.assertEqual(self.engine.done, ["k"])

    def test_who_reads_late_holds_nobody_up(self) -> None:
        late, client = self.reached(), self.reached()
        value = bytes(range(250)) * (SIZE_OF_LARGE // 250)
        late.sendall(register(value))
        asked = identifier_of(stub.receive(late))
        late.sendall(messages.get(asked) * ASKED_MORE_THAN_FITS)
        wait_until(lambda: len(self.engine.done) > 1, "the first Get")
        client.sendall(messages.get("k"))
        self.assertTrue(stub.receive(client))
        self.assertLess(len(self.engine.done), ASKED_MORE_THAN_FITS, "answers wait for whom they are for")
        for _ in range(ASKED_MORE_THAN_FITS):
            self.assertIn(value, stub.receive(late))

    def test_a_call_that_waits_lets_others_go_ahead(self) -> None:
        first, other = self.reached(), self.reached()
        begun = time.monotonic()
        first.sendall(messages.get("late") + messages.get("behind"))
        other.sendall(messages.get("other"))
        self.assertTrue(stub.receive(other))
        self.assertEqual(self.engine.done, ["other"])
        self.assertTrue(stub.receive(first))
        self.assertGreaterEqual(time.monotonic() - begun, SECONDS_OF_A_WAIT)
        self.assertTrue(stub.receive(first))
        self.assertEqual(self.engine.done, ["other", "late", "behind"])

    def test_a_call_is_done_though_its_client_has_gone(self) -> None:
        first = self.reached()
        first.sendall(messages.get("late"))
        time.sleep(SECONDS_OF_A_WAIT / 4)
        first.close()
        wait_until(lambda: self.engine.done == ["late"], "the call of a client that has gone")
        other = self.reached()
        other.sendall(messages.get("other"))
        self.assertTrue(stub.receive(other))

    def test_what_is_not_understood_is_refused_and_the_connection_goes_on(self) -> None:
        client = self.reached()
        whole = messages.get("k")
        torn = whole.replace(messages.number(0x42005C, 5, 0x0A), bytes.fromhex("42005C0500000008") + bytes(8))
        for asked in (messages.get("k", (3, 0)), messages.structure(0x420078), torn,
                      messages.structure(0x420078, messages.structure(0x420077, messages.version(2, 1)))):
            client.sendall(asked)
            answer = stub.receive(client)
            self.assertEqual(answer[-32:], messages.number(0x42007F, 5, 1) + messages.number(0x42007E, 5, 4))
        client.sendall(whole)
        self.assertTrue(stub.receive(client))
        self.assertEqual(self.engine.done, ["k"])

    def test_what_is_no_request_ends_its_connection_alone(self) -> None:
        for said in (b"GET / HTTP/1.1\r\n\r\n", messages.not_found(1)):
            wrong, client = self.reached(), self.reached()
            wrong.sendall(said)
            self.assertEqual(stub.receive(wrong), b"")
            client.sendall(messages.get("k"))
            self.assertTrue(stub.receive(client))

    def test_a_break_down_ends_its_connection_alone(self) -> None:
        told = io.StringIO()
        broken, client = self.reached(), self.reached()
        with contextlib.redirect_stderr(told):
            broken.sendall(messages.get("fault"))
            self.assertEqual(stub.receive(broken), b"")
        self.assertIn("ZeroDivisionError: the engine broke down", told.getvalue())
        client.sendall(messages.get("k"))
        self.assertTrue(stub.receive(client))

    def test_its_end_is_that_of_all_connections(self) -> None:
        client = self.reached()
        client.sendall(messages.get("late"))
        time.sleep(SECONDS_OF_A_WAIT / 4)
        self.server.close()
        self.assertEqual(stub.receive(client), b"")
        with self.assertRaises(OSError):
            socket.create_connection(("127.0.0.1", self.server.port), timeout=SECONDS)
        self.server.close()


if __name__ == "__main__":
    unittest.main()
