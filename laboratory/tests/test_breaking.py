"""Nothing that a client, a server or the network does ends the recorder, or a simulated server: at whatever moment a
connection breaks, the others go on."""

from __future__ import annotations

import asyncio
import contextlib
import io
import socket
import unittest
from dataclasses import replace
from unittest import mock

import breaking
import certificates
import messages
import stub
from breaking import STAMP
from laboratory import SECONDS, Laboratory, Recorder, wait_until
from test_proxy import at_once

from kmip_laboratory import peer, tls
from kmip_laboratory.address import Address
from kmip_laboratory.certificate import Shown
from kmip_laboratory.driving import drive, mixes
from kmip_laboratory.driving.engine import Engine
from kmip_laboratory.driving.server import Server
from kmip_laboratory.driving.store import Clock
from kmip_laboratory.handshakes import Handshakes
from kmip_laboratory.recording.proxy import Proxy
from kmip_laboratory.trouble import ConnectionTrouble, Trouble

# The order of what comes about is not ours: each is tried so often.
TIMES = 3


class Recorded(Laboratory):
    """A recorder, and connections that break."""

    def see_that_it_goes_on(self, recorder: Recorder) -> None:
        """A client that comes now is answered, and the recorder ends as it should."""
        client = self.client(recorder.port, "client-2")
        client.sendall(messages.get("key-2"))
        self.assertEqual(stub.receive(client), messages.not_found(STAMP), recorder.said)
        last = recorder.end()
        self.assertEqual(recorder.status(), 0, recorder.said)
        self.assertRegex(last, r"^\d+ calls, \d+ open calls, ")
        self.assertFalse(recorder.heard("Traceback"), recorder.said)
        recorder.transcript.unlink()

    def test_clients_that_are_gone_at_any_moment(self) -> None:
        for newest in (True, False):
            server = self.stub(at_once)
            for ending, end in breaking.ENDINGS.items():
                recorder = self.start(server.port, "--answer-within", "0.2")
                for moment, does in breaking.clients(self.certificates, newest).items():
                    with self.subTest(newest=newest, ending=ending, moment=moment):
                        for _ in range(TIMES):
                            self.goes(recorder.port, does, end)
                        self.assertIsNone(recorder.status(), recorder.said)
                self.see_that_it_goes_on(recorder)

    def goes(self, port: int, does: breaking.Peer, end: breaking.Ending) -> None:
        """A client that does this and is gone."""
        plain = socket.create_connection(("127.0.0.1", port), timeout=SECONDS)
        with contextlib.suppress(OSError):
            does(plain)
        end(plain)

    def test_servers_that_are_gone_at_any_moment(self) -> None:
        for newest in (True, False):
            for ending, end in breaking.ENDINGS.items():
                server = breaking.Server(self.certificates, end, newest)
                self.addCleanup(server.close)
                recorder = self.start(server.port, "--answer-within", "0.2")
                for moment, server.does in breaking.servers().items():
                    with self.subTest(newest=newest, ending=ending, moment=moment):
                        for _ in range(TIMES):
                            self.asks(recorder.port)
                        self.assertIsNone(recorder.status(), recorder.said)
                server.does = None
                self.see_that_it_goes_on(recorder)

    def asks(self, port: int) -> None:
        """A client that asks twice, and takes what comes."""
        client = self.client(port)
        with contextlib.suppress(OSError):
            client.sendall(messages.get("key-1") * 2)
            while stub.receive(client):
                pass
        client.close()

    def test_a_certificate_that_has_no_text_where_one_belongs(self) -> None:
        certificates.make_certificates(self.certificates, ["odd"], also="DER:30:05:82:03:FF:FE:FD")
        recorder = self.start(self.stub(at_once).port)
        client = self.client(recorder.port, "odd")
        client.sendall(messages.get("key-1"))
        self.assertEqual(stub.receive(client), messages.not_found(STAMP))
        self.assertEqual(recorder.marks()[0].client, "odd")
        self.see_that_it_goes_on(recorder)

    def test_many_that_are_gone_behind_the_handshake_at_once(self) -> None:
        recorder = self.start(self.stub(at_once).port)
        does = breaking.clients(self.certificates, True)["behind the handshake"]
        for end in (breaking.reset, breaking.close) * 40:
            self.goes(recorder.port, does, end)
        self.see_that_it_goes_on(recorder)


class Greeted(Laboratory):
    """What is known of a client behind its handshake."""

    def test_who_is_gone_behind_the_handshake_has_shown_a_certificate(self) -> None:
        names = ("recorder.pem", "recorder.key", "authority.pem")
        context = tls.toward_clients(*(str(self.certificates / name) for name in names))
        shake = Handshakes.shake

        async def broken(*words: object) -> object:
            """A handshake, and a client that is gone by its end."""
            made = await shake(*words)
            breaking.reset(client)
            wait_until(lambda: not is_there(made), "the reset")
            return made

        async def known(server: socket.socket) -> Shown:
            shaking = asyncio.get_running_loop().run_in_executor(None, breaking.clients(self.certificates, True)[
                "behind the handshake"], client)
            greeted = await peer.accept(server, context)
            await shaking
            return greeted.shown

        with socket.create_server(("127.0.0.1", 0)) as listener:
            client = socket.create_connection(listener.getsockname(), timeout=SECONDS)
            with mock.patch.object(Handshakes, "shake", broken):
                name, digest = asyncio.run(known(listener.accept()[0]))
        self.assertEqual(name, "client-1")
        self.assertRegex(digest, "^[0-9a-f]{64}$")


def is_there(made: socket.socket) -> bool:
    """Whether a connection has its other end."""
    try:
        made.getpeername()
    except OSError:
        return False
    return True


class Ends(unittest.TestCase):
    """What ends the whole work, and what one connection alone."""

    def served(self, trouble: BaseException) -> str:
        """What is said of a connection that came to this; the work is ended where that ends it."""
        way, connection = mock.Mock(), mock.AsyncMock()
        connection.name, connection.open_call, connection.serve.side_effect = "client-1", 7, trouble

        async def serve() -> None:
            proxy = Proxy(way)
            await proxy._watch(connection)
            with socket.create_server(("127.0.0.1", 0)) as listener:
                listener.setblocking(False)
                asyncio.get_running_loop().call_later(0.05, proxy.stop)
                await proxy.serve(listener)

        with contextlib.redirect_stderr(io.StringIO()) as said:
            asyncio.run(serve())
        way.recording.give_up.assert_called_once_with(7)
        self.assertEqual(said.getvalue().count("\n"), 1)
        return said.getvalue()

    def test_what_hinders_marks_ends_all(self) -> None:
        with self.assertRaisesRegex(Trouble, "the disk is full"):
            self.served(Trouble("the disk is full"))

    def test_anything_else_ends_one_connection(self) -> None:
        self.assertIn("client-1: it broke off; call 7 stays open", self.served(ConnectionTrouble("it broke off")))
        for fault in (AttributeError("none of it"), OSError(9, "Bad file descriptor"), RecursionError("too deep"),
                      ZeroDivisionError("none\x1b[2J")):
            with self.subTest(fault=fault):
                said = self.served(fault)
                self.assertRegex(said, r"client-1: the connection ended by the recorder's own fault, "
                                 rf"{type(fault).__name__}: .* line \d+\); call 7 stays open\n\Z")
                self.assertNotIn("\x1b", said)


class Simulated(Laboratory):
    """The simulated server, and clients that break off."""

    def test_clients_that_are_gone_at_any_moment(self) -> None:
        files = [str(self.certificates / name) for name in ("server.pem", "server.key", "authority.pem")]
        server = Server(Engine(Clock()), tls.toward_clients(*files))
        self.addCleanup(server.close)
        for newest in (True, False):
            for ending, end in breaking.ENDINGS.items():
                for moment, does in breaking.clients(self.certificates, newest).items():
                    with self.subTest(newest=newest, ending=ending, moment=moment):
                        for _ in range(TIMES):
                            Recorded.goes(self, server.port, does, end)
                        client = self.client(server.port)
                        client.sendall(messages.get("key-1"))
                        self.assertTrue(stub.receive(client))


class Driven(Laboratory):
    """The driver, and a server that breaks off."""

    def test_servers_that_are_gone_at_any_moment(self) -> None:
        files = [str(self.certificates / name) for name in ("client-1.pem", "client-1.key", "authority.pem")]
        server = breaking.Server(self.certificates, breaking.reset, True)
        self.addCleanup(server.close)
        job = drive.Job(Address("127.0.0.1", server.port), tls.toward_server(*files), mixes.find("lifecycle"), clients=2, calls=20)
        self.assertEqual(drive.drive(job).calls, 20)
        for moment, server.does in breaking.servers().items():
            with self.subTest(moment=moment):
                try:
                    drive.drive(replace(job, calls=None, seconds=2))
                except Trouble as told:
                    self.assertRegex(str(told), "can't go on with the server|no server at")


if __name__ == "__main__":
    unittest.main()
