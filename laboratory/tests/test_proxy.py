"""The recorder between clients and a server: many at once, broken connections, wrong messages, and its own end."""

from __future__ import annotations

import itertools
import signal
import socket
import ssl
import threading
import unittest

import certificates
import messages
import stub
from laboratory import SECONDS, Begin, Laboratory, audit, kinds, run, wait_until

STAMP = 1_700_000_000
CONNECTIONS = 50
CALLS_EACH = 10


def at_once(peer: ssl.SSLSocket, _: bytes) -> None:
    """Answers at once that there is no such object."""
    peer.sendall(messages.not_found(STAMP))


def never(_: ssl.SSLSocket, __: bytes) -> None:
    """Gives no answer."""


class ManyConnections(Laboratory):
    """Fifty connections at once, whose first calls all overlap."""

    def test_marks_keep_the_order_of_the_server_and_the_auditor_says_yes(self) -> None:
        all_here = threading.Barrier(CONNECTIONS)

        def answering(peer: ssl.SSLSocket, request: bytes) -> None:
            if b"first" in request:
                all_here.wait(SECONDS)
            server.gave[request] = server.clock.tick()
            peer.sendall(messages.not_found(STAMP))

        server = self.stub(answering)
        recorder = self.start(server.port, program=self.patient())
        clients = [threading.Thread(target=self.ask, args=(recorder.port, n)) for n in range(CONNECTIONS)]
        for client in clients:
            client.start()
        for client in clients:
            client.join(SECONDS)
        calls = CONNECTIONS * CALLS_EACH
        self.assertTrue(recorder.end().startswith(f"{calls} calls, 0 open calls, "))
        self.assertEqual(recorder.status(), 0)
        marks = recorder.marks()
        self.assertEqual(len(marks), 2 * calls)
        self.assertEqual({mark.client for mark in marks if isinstance(mark, Begin)}, {"client-1", "client-2"})
        self.assertEqual([kind for kind, _ in kinds(marks)][:CONNECTIONS], ["begin"] * CONNECTIONS)
        self.see_order(marks, server)
        self.assertEqual(run("declare", "--empty", "--out", self.folder / "declaration.ttlv").returncode, 0)
        self.assertEqual(run("order", recorder.transcript, "--out", self.folder / "witness.ttlv").returncode, 0)
        self.assertEqual(audit(self.folder), "yes\n")

    def ask(self, port: int, number: int) -> None:
        client = self.client(port, f"client-{1 + number % 2}")
        for turn in range(CALLS_EACH):
            client.sendall(messages.get(f"{'first' if turn == 0 else turn} of {number}"))
            stub.receive(client)
        client.close()

    def see_order(self, marks: list, server: stub.Stub) -> None:
        """A call that ended before another began in the file was answered before the other came to the server."""
        requests: dict[int, bytes] = {}
        last_given = 0
        for mark in marks:
            if isinstance(mark, Begin):
                requests[mark.call] = mark.message
                self.assertGreater(server.got[mark.message], last_given)
            else:
                last_given = max(last_given, server.gave[requests[mark.call]])


class Breaks(Laboratory):
    """Connections that break, each with a second one beside it that goes on."""

    def test_a_client_that_breaks_off_has_its_answer_marked(self) -> None:
        may = threading.Event()

        def answering(peer: ssl.SSLSocket, request: bytes) -> None:
            may.wait(SECONDS)
            at_once(peer, request)

        server = self.stub(answering)
        recorder = self.start(server.port)
        self.assertTrue(server.ended.wait(SECONDS), "the recorder's own try")
        server.ended.clear()
        client = self.client(recorder.port)
        client.sendall(messages.get("key-1"))
        wait_until(lambda: server.got, "the request at the server")
        client.close()
        self.assertFalse(server.ended.wait(0.3), "the break stays with the recorder while the call is under way")
        may.set()
        wait_until(lambda: recorder.heard("client-1: the client broke off; the server's answer is marked all the same"),
                   "a word on the break")
        self.assertTrue(server.ended.wait(SECONDS), "then the break goes on to the server")
        self.assertTrue(recorder.end().startswith("1 calls, 0 open calls, "))
        self.assertEqual([mark.message for mark in recorder.marks()], [
            messages.get("key-1"), messages.not_found(STAMP)])

    def test_a_client_that_breaks_off_without_an_answer_leaves_an_open_call(self) -> None:
        server = self.stub(never)
        recorder = self.start(server.port, "--answer-within", "0.3")
        self.assertTrue(server.ended.wait(SECONDS), "the recorder's own try")
        server.ended.clear()
        client = self.client(recorder.port)
        client.sendall(messages.get("key-1"))
        wait_until(lambda: server.got, "the request at the server")
        client.close()
        self.assertTrue(server.ended.wait(SECONDS), "the break goes on to the server")
        wait_until(lambda: recorder.heard("client-1: the client broke off, and no answer came in 0.3 s; call 1 stays "
                                          "open"), "a word on the call")
        self.assertTrue(recorder.end().startswith("1 calls, 1 open calls, "))
        self.assertEqual(kinds(recorder.marks()), [("begin", 1)])

    def test_a_client_that_breaks_off_in_its_answer_leaves_no_open_call(self) -> None:
        long = messages.not_found(STAMP, text="x" * 1_000_000)
        recorder = self.start(self.stub(lambda peer, _: peer.sendall(long)).port)
        client = self.client(recorder.port)
        client.sendall(messages.get("key-1"))
        client.recv(1)
        client.close()
        wait_until(lambda: recorder.heard("client-1: the client broke off"), "a word on the break")
        self.assertFalse(recorder.heard("stays open"))
        self.assertTrue(recorder.end().startswith("1 calls, 0 open calls, "))

    def test_a_client_that_breaks_off_in_its_request_leaves_no_mark(self) -> None:
        server = self.stub(at_once)
        recorder = self.start(server.port)
        client = self.client(recorder.port)
        client.sendall(messages.get("key-1") + messages.get("key-2")[:-1])
        stub.receive(client)
        client.close()
        wait_until(lambda: recorder.heard("the client broke off in the middle of a message"), "a word on the break")
        self.assertTrue(recorder.end().startswith("1 calls, 0 open calls, "))
        self.assertEqual(list(server.got), [messages.get("key-1")])

    def test_a_server_that_dies_in_the_middle_of_an_answer(self) -> None:
        def answering(peer: ssl.SSLSocket, request: bytes) -> None:
            if b"fatal" in request:
                peer.sendall(messages.not_found(STAMP)[:-1])
                peer.close()
            else:
                at_once(peer, request)

        recorder = self.start(self.stub(answering).port)
        other = self.client(recorder.port, "client-2")
        client = self.client(recorder.port)
        client.sendall(messages.get("fatal"))
        self.assertEqual(stub.receive(client), b"", "no byte of half an answer")
        other.sendall(messages.get("key-1"))
        self.assertEqual(stub.receive(other), messages.not_found(STAMP))
        wait_until(lambda: recorder.heard("client-1: the server broke off in the middle of a message; call 1 stays "
                                          "open"), "a word on the open call")
        self.assertTrue(recorder.end().startswith("2 calls, 1 open calls, "))
        self.assertEqual(kinds(recorder.marks()), [("begin", 1), ("begin", 2), ("end", 2)])

    def test_a_server_that_closes_an_idle_connection_closes_it_to_the_client(self) -> None:
        def answering(peer: ssl.SSLSocket, request: bytes) -> None:
            at_once(peer, request)
            peer.unwrap()

        recorder = self.start(self.stub(answering).port)
        client = self.client(recorder.port)
        client.sendall(messages.get("key-1"))
        self.assertEqual(stub.receive(client), messages.not_found(STAMP))
        self.assertEqual(stub.receive(client), b"")
        self.assertTrue(recorder.end().startswith("1 calls, 0 open calls, "))

    def test_requests_sent_ahead_are_taken_one_after_the_other(self) -> None:
        recorder = self.start(self.stub(at_once).port)
        client = self.client(recorder.port)
        client.sendall(messages.get("key-1") + messages.get("key-2"))
        self.assertEqual([stub.receive(client), stub.receive(client)], [messages.not_found(STAMP)] * 2)
        recorder.end()
        self.assertEqual(kinds(recorder.marks()), [("begin", 1), ("end", 1), ("begin", 2), ("end", 2)])


class WrongMessages(Laboratory):
    """What is no message ends its own connection, and no other."""

    def test_wrong_requests_end_their_connection_alone(self) -> None:
        server = self.stub(at_once)
        recorder = self.start(server.port)
        good = self.client(recorder.port, "client-2")
        torn = messages.item(0x420078, 1, messages.item(0x420077, 1, b"\x42\x00\x69\x0c\0\0\0\0"))
        wrong = {
            b"GET / HTTP/1.1\r\n\r\n": "what came is no Request Message",
            messages.not_found(STAMP): "what came is no Request Message: it begins with 42007b01",
            torn: "unknown type 0C at offset 16",
            messages.item(0x420078, 1, bytes(1_048_576)): "an item of 1,048,584 bytes, more than 1,048,576",
            messages.get("k" * 1_048_440): "its mark would be of",
        }
        for request, words in wrong.items():
            client = self.client(recorder.port)
            try:
                client.sendall(request)
            except OSError:
                pass
            self.assertEqual(stub.receive(client), b"")
            wait_until(lambda: recorder.heard(words), words)
        good.sendall(messages.get("key-1"))
        self.assertEqual(stub.receive(good), messages.not_found(STAMP))
        self.assertTrue(recorder.end().startswith("1 calls, 0 open calls, "))
        self.assertEqual(list(server.got), [messages.get("key-1")])

    def test_a_long_message_goes_through(self) -> None:
        long = messages.not_found(STAMP, text="x" * 1_000_000)
        recorder = self.start(self.stub(lambda peer, _: peer.sendall(long)).port)
        client = self.client(recorder.port)
        request = messages.get("k" * 1_000_000)
        client.sendall(request)
        self.assertEqual(stub.receive(client), long)
        recorder.end()
        self.assertEqual([mark.message for mark in recorder.marks()], [request, long])

    def test_an_answer_that_is_too_long_leaves_an_open_call(self) -> None:
        long = messages.not_found(STAMP, text="x" * 1_048_400)
        recorder = self.start(self.stub(lambda peer, _: peer.sendall(long)).port)
        client = self.client(recorder.port)
        client.sendall(messages.get("key-1"))
        self.assertEqual(stub.receive(client), b"")
        wait_until(lambda: recorder.heard("more than 1,048,576; call 1 stays open"), "a word on the open call")
        recorder.end()
        self.assertEqual(kinds(recorder.marks()), [("begin", 1)])


class Versions(Laboratory):
    """What `--minor 1` changes: the transcript, in headers of version 2.0."""

    def test_minor_1_changes_the_transcript_alone(self) -> None:
        told = messages.not_found(STAMP, (2, 0))
        server = self.stub(lambda peer, request: peer.sendall(
            told if request == messages.get("key-1", (2, 0)) else messages.not_found(STAMP, (1, 0))))
        recorder = self.start(server.port, "--minor", "1")
        client = self.client(recorder.port)
        for protocol in ((2, 0), (1, 4)):
            client.sendall(messages.get("key-1", protocol))
            self.assertEqual(stub.receive(client), told if protocol == (2, 0) else messages.not_found(STAMP, (1, 0)))
        recorder.end()
        self.assertTrue(recorder.heard("versions 1.0 to 2.0 are written as 2.1"))
        self.assertEqual([mark.message for mark in recorder.marks()], [
            messages.get("key-1", (2, 1)), messages.not_found(STAMP, (2, 1)),
            messages.get("key-1", (2, 1)), messages.not_found(STAMP, (2, 1))])


class Ends(Laboratory):
    """How the recorder ends, and who a client is."""

    def test_a_kill_in_the_midst_of_calls_loses_nothing_that_was_marked(self) -> None:
        server = self.stub(lambda peer, request: peer.sendall(messages.not_found(STAMP, text=request[-32:].hex())))
        recorder = self.start(server.port)
        answers: list[bytes] = []
        clients = [threading.Thread(target=self.ask_on, args=(recorder.port, n, answers)) for n in range(8)]
        for client in clients:
            client.start()
        wait_until(lambda: len(answers) > 300, "calls")
        recorder.end(signal.SIGKILL)
        for client in clients:
            client.join(SECONDS)
        marks = recorder.marks()
        begun = {mark.message for mark in marks if isinstance(mark, Begin)}
        ended = {mark.message for mark in marks if not isinstance(mark, Begin)}
        self.assertLessEqual(set(server.got), begun)
        self.assertLessEqual(set(answers), ended)
        self.assertGreater(len(ended), 300)

    def ask_on(self, port: int, number: int, answers: list[bytes]) -> None:
        """Makes calls until the connection breaks."""
        client = self.client(port)
        for turn in itertools.count():
            try:
                client.sendall(messages.get(f"call {turn} of client {number}"))
            except OSError:
                return
            answer = stub.receive(client)
            if not answer:
                return
            answers.append(answer)

    def test_ctrl_c_waits_for_an_answer_under_way(self) -> None:
        may = threading.Event()

        def answering(peer: ssl.SSLSocket, request: bytes) -> None:
            may.wait(SECONDS)
            at_once(peer, request)

        server = self.stub(answering)
        recorder = self.start(server.port)
        idle, client = self.client(recorder.port), self.client(recorder.port)
        client.sendall(messages.get("key-1"))
        wait_until(lambda: server.got, "the request at the server")
        threading.Timer(0.3, may.set).start()
        self.assertTrue(recorder.end().startswith("1 calls, 0 open calls, "))
        self.assertEqual(recorder.status(), 0)
        self.assertEqual(stub.receive(client), messages.not_found(STAMP))
        self.assertEqual(stub.receive(idle), b"")

    def test_a_client_without_a_common_name_is_its_address(self) -> None:
        certificates.make_certificates(self.certificates, ["nobody"], subject="/O=Test")
        recorder = self.start(self.stub(at_once).port)
        client = self.client(recorder.port, "nobody")
        client.sendall(messages.get("key-1"))
        stub.receive(client)
        host, port = client.getsockname()
        recorder.end()
        self.assertEqual(recorder.marks()[0].client, f"{host}:{port}")

    def test_a_client_of_another_authority_is_refused_and_said(self) -> None:
        certificates.make_authority(self.folder, "stranger")
        certificates.make_certificates(self.folder, ["client-1"], authority="stranger")
        (self.folder / "authority.pem").write_bytes((self.certificates / "authority.pem").read_bytes())
        recorder = self.start(self.stub(at_once).port)
        with socket.create_connection(("127.0.0.1", recorder.port)) as plain, self.assertRaises(OSError):
            with stub.context(self.folder, "client-1", server_side=False).wrap_socket(plain) as stranger:
                stranger.sendall(messages.get("key-1"))
                if not stranger.recv(1):
                    raise OSError("closed")
        wait_until(lambda: recorder.heard("no TLS with the client: its certificate is not signed by the authority"),
                   "a word on the certificate")
        client = self.client(recorder.port)
        client.sendall(messages.get("key-1"))
        self.assertEqual(stub.receive(client), messages.not_found(STAMP))


if __name__ == "__main__":
    unittest.main()
