"""What must not end the recorder, nor keep it from its clients: strangers, idlers, and nobody who reads what it says."""

from __future__ import annotations

import asyncio
import os
import resource
import socket
import ssl
import subprocess
import sys
import time
import unittest
from collections import Counter
from concurrent.futures import ThreadPoolExecutor
from contextlib import contextmanager
from pathlib import Path
from typing import Iterator
from unittest import mock

import messages
import stub
from laboratory import RECORDER, SECONDS, Laboratory, Limit, wait_until
from ports import free_port
from test_proxy import STAMP, at_once, never

from kmip_laboratory import peer, tls
from kmip_laboratory.recording.admission import Admission
from kmip_laboratory.trouble import ConnectionTrouble

STRANGERS = 1_100
MANY = """
import resource, socket, sys, time
from test_staying_up import HELLO
resource.setrlimit(resource.RLIMIT_NOFILE, (resource.getrlimit(resource.RLIMIT_NOFILE)[1],) * 2)
print("begins", flush=True)
made = []
for _ in range(int(sys.argv[2])):
    made.append(socket.socket())
    made[-1].setblocking(False)
    made[-1].connect_ex(("127.0.0.1", int(sys.argv[1])))
    if len(made) % 100 == 0:
        # So that nobody else is the oldest who is kept from his first word for a moment.
        time.sleep(0.05)
for each in made if sys.argv[3] else []:
    each.settimeout(60)
    try:
        each.sendall(HELLO)
    except OSError:
        pass
print("all are there", flush=True)
time.sleep(600)
"""
# How many seconds a client may be idle: it says its first request within them, on a machine that does much else too.
IDLE = "4"
FILES = Limit(resource.RLIMIT_NOFILE, 1_024)


def hello() -> bytes:
    """The first bytes of a client that begins a handshake."""
    read, written = ssl.MemoryBIO(), ssl.MemoryBIO()
    context = ssl.SSLContext(ssl.PROTOCOL_TLS_CLIENT)
    context.check_hostname = False
    try:
        context.wrap_bio(read, written).do_handshake()
    except ssl.SSLWantReadError:
        pass
    return written.read()


HELLO = hello()
BAD = b"GET / HTTP/1.1\r\n\r\n"


class Strangers(Laboratory):
    """Clients that show no certificate."""

    @contextmanager
    def strangers(self, port: int, speaks: bool) -> Iterator[None]:
        """Many of them at once, made by another process: they say nothing, or begin a handshake and go no further."""
        words = [sys.executable, "-c", MANY, str(port), str(STRANGERS), "speaks" if speaks else ""]
        with subprocess.Popen(words, cwd=Path(__file__).parent, text=True, stdout=subprocess.PIPE) as running:
            try:
                self.assertEqual(running.stdout.readline(), "begins\n")
                yield
                self.assertEqual(running.stdout.readline(), "all are there\n")
            finally:
                running.kill()

    def ask(self, client: ssl.SSLSocket) -> None:
        """A call, which is answered ahead of the client's limit."""
        client.sendall(messages.get("key-1"))
        self.assertEqual(stub.receive(client), messages.not_found(STAMP))

    def test_many_without_a_certificate_refuse_nobody_and_hold_nobody_up(self) -> None:
        for speaks in (False, True):
            with self.subTest(speaks=speaks):
                recorder = self.start(self.stub(at_once).port, program=self.patient(), limit=None if speaks else FILES)
                known, calls = self.client(recorder.port), 0
                with self.strangers(recorder.port, speaks):
                    end = time.monotonic() + 1.5
                    while time.monotonic() < end:
                        self.ask(known)
                        self.ask(self.client(recorder.port, "client-2"))
                        calls += 2
                    wait_until(lambda: recorder.heard("connections that showed no certificate had to go for others"), "a word")
                    self.ask(known)
                    calls += 1
                self.assertTrue(recorder.end().startswith(f"{calls} calls, 0 open calls, "))
                recorder.transcript.unlink()

    def test_a_handshake_has_a_limit(self) -> None:
        context = tls.toward_clients(*(str(self.certificates / name) for name in (
            "recorder.pem", "recorder.key", "authority.pem")))
        self.assertEqual(peer.SECONDS_TO_GREET, 10)

        async def accept(server: socket.socket) -> None:
            await peer.accept(server, context)

        for said in (b"", HELLO[:20], HELLO):
            ours, theirs = socket.socketpair()
            self.addCleanup(theirs.close)
            theirs.sendall(said)
            with self.subTest(said), mock.patch("kmip_laboratory.peer.SECONDS_TO_GREET", 0.2), self.assertRaisesRegex(
                    ConnectionTrouble, "no TLS with the client: it was not through in 0.2 s"):
                asyncio.run(accept(ours))
            self.assertEqual(ours.fileno(), -1, "it is closed")

    def test_the_oldest_of_the_sort_goes_of_which_there_are_more(self) -> None:
        async def some(speak: str) -> str:
            admission, left = Admission(1), []

            async def unknown(place: int, speaks: bool) -> None:
                with admission.unknown() as spoke:
                    if speaks:
                        spoke()
                    try:
                        await asyncio.sleep(60)
                    except asyncio.CancelledError:
                        left.append(str(place))

            tasks = [asyncio.ensure_future(unknown(place, word == "s")) for place, word in enumerate(speak)]
            await asyncio.sleep(0.01)
            for _ in range(len(speak) + 1):
                admission.drop_oldest()
                await asyncio.sleep(0.01)
            await asyncio.gather(*tasks)
            return "".join(left)

        # s has begun its handshake, - has said nothing: who has just come stays among many in the handshake,
        # and the other way about.
        self.assertEqual(asyncio.run(some("ssss-")), "01243")
        self.assertEqual(asyncio.run(some("s----")), "12340")
        self.assertEqual(asyncio.run(some("s-s-s")), "01234")


class Known(Laboratory):
    """Clients that have shown one."""

    def answered(self, port: int, name: str) -> bytes:
        """What one more connection of this client gets, which stays open; nothing where it is refused."""
        client = self.client(port, name)
        try:
            client.sendall(messages.get("key-1"))
        except OSError:
            return b""
        return stub.receive(client)

    def test_a_client_has_so_many_connections_and_no_more(self) -> None:
        recorder = self.start(self.stub(at_once).port, "--connections", "2")
        held = [self.client(recorder.port) for _ in range(2)]
        for client in held:
            client.sendall(messages.get("key-1"))
            stub.receive(client)
        self.assertEqual(self.answered(recorder.port, "client-1"), b"")
        wait_until(lambda: recorder.heard("client-1 has 2 connections already, and gets no more (--connections)"), "a word")
        self.assertEqual(self.answered(recorder.port, "client-2"), messages.not_found(STAMP), "others are not meant")
        held[0].close()
        wait_until(lambda: self.answered(recorder.port, "client-1"), "room for one more")

    def test_so_many_at_once_leave_others_theirs(self) -> None:
        recorder = self.start(self.stub(at_once).port, "--connections", "10", program=self.patient())
        # Each has a connection for itself, since OpenSSL breaks down where two threads use one, and holds it to the end.
        with ThreadPoolExecutor(40) as pool:
            asking = [pool.submit(self.answered, recorder.port, "client-1") for _ in range(40)]
            other = self.answered(recorder.port, "client-2")
            answers = Counter(each.result() for each in asking)
        self.assertEqual(other, messages.not_found(STAMP), recorder.said)
        self.assertEqual(answers, {messages.not_found(STAMP): 10, b"": 30}, recorder.said)

    def test_a_client_that_asks_nothing_has_to_go(self) -> None:
        server = self.stub(at_once)
        recorder = self.start(server.port, "--idle", IDLE)
        for sent in (b"", messages.get("key-1")[:-1]):
            client = self.client(recorder.port)
            client.sendall(messages.get("key-1") + sent)
            self.assertEqual(stub.receive(client), messages.not_found(STAMP))
            self.assertEqual(stub.receive(client), b"")
        told = f"client-1: no whole request came in {IDLE} s"
        wait_until(lambda: sum(told in line for line in recorder.said) == 2, "words")
        self.assertTrue(recorder.end().startswith("2 calls, 0 open calls, "))

    def test_a_call_under_way_is_not_idle(self) -> None:
        def answering(client: stub.ssl.SSLSocket, request: bytes) -> None:
            time.sleep(2 * float(IDLE))
            at_once(client, request)

        recorder = self.start(self.stub(answering).port, "--idle", IDLE)
        self.assertEqual(self.answered(recorder.port, "client-1"), messages.not_found(STAMP))

    def test_a_client_that_does_not_take_its_answer_has_to_go(self) -> None:
        long = messages.not_found(STAMP, text="x" * 1_000_000)
        recorder = self.start(self.stub(lambda client, _: client.sendall(long)).port, "--idle", IDLE)
        client = self.client(recorder.port)
        client.setsockopt(socket.SOL_SOCKET, socket.SO_RCVBUF, 4096)
        for turn in range(20):
            client.sendall(messages.get(f"key-{turn}"))
        wait_until(lambda: recorder.heard(f"client-1: the client did not take a whole message in {IDLE} s"), "a word")

    def test_a_server_that_answers_nothing_is_waited_for(self) -> None:
        server = self.stub(never)
        recorder = self.start(server.port, "--idle", IDLE)
        client = self.client(recorder.port)
        client.sendall(messages.get("key-1"))
        wait_until(lambda: server.got, "the request at the server")
        time.sleep(2 * float(IDLE))
        self.assertFalse(recorder.heard("client-1"), "the call is the server's, and not idle")


class StandardError(Laboratory):
    """Nobody reads what is told."""

    def recorder(self, error: object) -> subprocess.Popen[str]:
        """A recorder that tells things there; its port is found by its listening."""
        self.port = free_port()
        words = ["proxy", "--listen", f"127.0.0.1:{self.port}", "--server", f"127.0.0.1:{self.stub(at_once).port}",
                 "--cert", "recorder.pem", "--key", "recorder.key", "--client-ca", "authority.pem", "--out",
                 str(self.folder / "transcript.ttlv")]
        closed = (lambda: os.close(2)) if error is None else None
        recorder = subprocess.Popen([sys.executable, str(RECORDER), *words], cwd=self.certificates, text=True,
                                    stdout=subprocess.PIPE, stderr=error, preexec_fn=closed)
        self.addCleanup(recorder.stdout.close)
        self.addCleanup(recorder.wait, SECONDS)
        self.addCleanup(recorder.kill)
        wait_until(self.is_there, "the recorder")
        return recorder

    def is_there(self) -> bool:
        with socket.socket() as tried:
            return tried.connect_ex(("127.0.0.1", self.port)) == 0

    def see_that_it_goes_on(self, recorder: subprocess.Popen[str]) -> None:
        """Has it tell things, makes a call in 1.2, and sees the transcript whole."""
        for _ in range(4):
            client = self.client(self.port)
            client.sendall(BAD)
            self.assertEqual(stub.receive(client), b"")
        client = self.client(self.port)
        client.sendall(messages.get("key-1", (1, 2)))
        self.assertEqual(stub.receive(client), messages.not_found(STAMP))
        recorder.send_signal(2)
        self.assertTrue(recorder.stdout.read().startswith("1 calls, 0 open calls, "))
        self.assertEqual(recorder.wait(SECONDS), 0)
        self.assertTrue((self.folder / "transcript.ttlv").read_bytes().startswith(bytes.fromhex("54000101")))

    def test_a_pipe_that_nobody_reads_any_more(self) -> None:
        reader, writer = os.pipe()
        recorder = self.recorder(writer)
        os.close(writer)
        os.close(reader)
        self.see_that_it_goes_on(recorder)

    def test_a_pipe_that_is_full(self) -> None:
        reader, writer = os.pipe()
        self.addCleanup(os.close, reader)
        recorder = self.recorder(writer)
        os.set_blocking(writer, False)
        with self.assertRaises(BlockingIOError):
            while True:
                os.write(writer, b"x")
        os.set_blocking(writer, True)
        os.close(writer)
        self.see_that_it_goes_on(recorder)

    def test_a_device_that_is_full(self) -> None:
        with open("/dev/full", "w") as full:
            self.see_that_it_goes_on(self.recorder(full))

    def test_none_at_all(self) -> None:
        self.see_that_it_goes_on(self.recorder(None))


if __name__ == "__main__":
    unittest.main()
