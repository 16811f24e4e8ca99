"""What stands between a capture and its marks: gaps, torn messages, calls ahead of their answers."""

from __future__ import annotations

import hashlib
import subprocess
import threading
import unittest
from pathlib import Path
from typing import Optional
from unittest import mock

import messages
import stub
from capturing import captured, need_tshark
from laboratory import SECONDS, Laboratory, kinds, read_marks, run, run_apart, wait_until
from sealed_files import notes

from kmip_laboratory import certificate
from kmip_laboratory.address import Address
from kmip_laboratory.recording.capture import Stream
from kmip_laboratory.recording.capture import run as run_keylog
from kmip_laboratory.recording.gaps import Span, have_gap
from kmip_laboratory.recording.packets import Packet
from kmip_laboratory.recording.recording import Recording
from kmip_laboratory.recording.verifying import verify
from kmip_laboratory.trouble import ConnectionTrouble

STAMP = 1_700_000_000
CLIENT = Address("192.0.2.7", 50_000)
WHOLE = [(0, True, Span(0, 1, 0)), (0, False, Span(0, 1, 1)), (0, True, Span(1, 101, 1)), (0, False, Span(1, 51, 101)),
         (0, True, Span(101, 102, 51)), (0, False, Span(51, 52, 102)), (0, True, Span(102, 102, 52))]


class Gaps(unittest.TestCase):
    """A connection with one message each way, in seven packets."""

    def test_all_packets_have_no_gap(self) -> None:
        self.assertFalse(have_gap(WHOLE))

    def test_late_packets_and_such_that_came_twice_are_no_gap(self) -> None:
        self.assertFalse(have_gap(WHOLE[::-1] + WHOLE[:3]))

    def test_each_missing_packet_is_a_gap(self) -> None:
        for missing in range(6):
            with self.subTest(missing):
                self.assertTrue(have_gap(WHOLE[:missing] + WHOLE[missing + 1:]))


class Streams(Laboratory):
    """Packets of one connection, as tshark reads them."""

    def take(self, sent: list[tuple[bool, bytes]], shown: Optional[bytes] = None) -> list[tuple[str, int]]:
        path = self.folder / "transcript.ttlv"
        stream = Stream(CLIENT)
        with Recording(str(path)) as recording:
            for by_client, data in sent:
                stream.take(Packet(0, CLIENT, by_client, data, shown, False, None), recording)
        return read_marks(str(path))

    def test_a_mark_stands_where_its_message_is_whole(self) -> None:
        first, second, answer = messages.get("key-1"), messages.get("key-2"), messages.not_found(STAMP)
        marks = self.take([(True, first[:20]), (True, first[20:] + second[:9]), (False, answer), (True, second[9:])])
        self.assertEqual(kinds(marks), [("begin", 1), ("end", 1), ("begin", 2)])
        self.assertEqual([mark.message for mark in marks], [first, answer, second])
        self.assertEqual(marks[0].client, "192.0.2.7:50000")

    def test_answers_belong_to_requests_in_their_order(self) -> None:
        ahead = messages.get("key-1") + messages.get("key-2")
        marks = self.take([(True, ahead), (False, messages.not_found(STAMP) + messages.not_found(STAMP + 1))])
        self.assertEqual(kinds(marks), [("begin", 1), ("begin", 2), ("end", 1), ("end", 2)])

    def test_an_answer_without_a_request(self) -> None:
        with self.assertRaisesRegex(ConnectionTrouble, "a response without a request"):
            self.take([(False, messages.not_found(STAMP))])

    def test_the_name_is_that_of_the_certificate(self) -> None:
        spelled = subprocess.run(["openssl", "x509", "-in", "client-3.pem", "-outform", "DER"], check=True,
                                 cwd=self.certificates, capture_output=True).stdout
        marks = self.take([(True, b""), (True, messages.get("key-1"))], spelled)
        self.assertEqual(marks[0].client, "client-3")
        self.assertIsNone(certificate.common_name(spelled[:-1]), "torn")


    def test_a_sealed_one_notes_who_each_connection_is_and_what_is_left_out(self) -> None:
        der = stub.ssl.PEM_cert_to_DER_cert((self.certificates / "client-3.pem").read_text())
        known = f"{CLIENT}, certificate SHA-256 {hashlib.sha256(der).hexdigest()}, name client-3"
        other = Address("192.0.2.8", 50_000)
        packets = [Packet(0, CLIENT, True, b"", der, False, None), Packet(1, other, True, messages.get("k"), None, False, None),
                   Packet(0, CLIENT, True, messages.get("k"), None, False, None),
                   Packet(0, CLIENT, False, 2 * messages.not_found(STAMP), None, False, None)]
        path, capture = self.folder / "transcript.ttlv", self.folder / "capture"
        capture.write_bytes(b"packets")
        with mock.patch("kmip_laboratory.recording.capture.read_packets", return_value=packets):
            run_keylog(str(capture), "secrets", CLIENT, lambda clock, without_end: Recording(
                str(path), clock=clock, without_end=without_end))
        self.assertEqual(notes(path), [
            (5, f"made from the capture {capture}, SHA-256 {hashlib.sha256(b'packets').hexdigest()}: the moments are those of "
             "the making"), (1, f"{other}, no certificate seen"), (1, known),
            (2, f"{known}: the server sent a response without a request; the rest of it is left out")])
        self.assertEqual(kinds(read_marks(str(path))), [("begin", 1), ("begin", 2), ("end", 2)])
        list(verify([str(path)], None, None))


class Newest(Laboratory):
    """TLS 1.3, which hides more than 1.2 does, with the server's key log and messages of many packets."""

    def test_calls_of_tls_1_3_are_read_and_none_without_its_secrets(self) -> None:
        need_tshark(self)
        keylog, answer = self.folder / "keylog", messages.not_found(STAMP, text="x" * 300_000)
        requests = [messages.get(f"key-{turn}" + "k" * 300_000) for turn in range(3)]
        server = self.stub(lambda peer, _: peer.sendall(answer), keylog=keylog)
        with captured(self, server.port) as capture:
            client = self.client(server.port)
            for request in requests:
                client.sendall(request)
                self.assertEqual(stub.receive(client), answer)
            client.close()
        words = ["--server", f"127.0.0.1:{server.port}", "--out", self.folder / "transcript.ttlv"]
        (self.folder / "empty").touch()
        self.assertIn("said can't be read: ", run("keylog", capture, self.folder / "empty", *words).stderr)
        self.assertTrue(run("keylog", capture, keylog, *words).stdout.startswith("3 calls, 0 open calls, "))
        marks = read_marks(str(self.folder / "transcript.ttlv"))
        self.assertEqual([mark.message for mark in marks[::2]], requests)
        self.assertEqual([mark.message for mark in marks[1::2]], [answer] * 3)
        self.assertEqual({mark.client for mark in marks[::2]}, {"client-1"})


class Segments(Laboratory):
    """The words `--segment-calls` and `--segment-seconds`, on packets of three clients, one of which gets no answer."""

    def capture(self) -> tuple[Path, Path]:
        """A capture and its key log: calls 1, 5 and 6 alone, 2 without an answer, and 4 within 3; 5 is answered twenty
        seconds later by its Time Stamp."""
        quick_one_is_done = threading.Event()

        def answering(peer: stub.ssl.SSLSocket, request: bytes) -> None:
            if b"never" in request:
                return
            if b"slow" in request:
                quick_one_is_done.wait(SECONDS)
            peer.sendall(messages.not_found(STAMP + (20 if b"late" in request else 0)))

        keylog = self.folder / "keylog"
        server = self.stub(answering, keylog=keylog)
        with captured(self, server.port) as capture:
            clients = [self.client(server.port, f"client-{number}") for number in range(3)]

            def say(client: int, key: str) -> None:
                clients[client].sendall(messages.get(key))
                wait_until(lambda: messages.get(key) in server.got, f"the request for {key} at the server")

            def call(client: int, key: str) -> None:
                say(client, key)
                self.assertTrue(stub.receive(clients[client]))

            call(0, "first")
            say(1, "never")
            say(0, "slow")
            call(2, "quick")
            quick_one_is_done.set()
            self.assertTrue(stub.receive(clients[0]))
            call(0, "late")
            call(2, "last")
            for client in clients:
                client.close()
        self.server = f"127.0.0.1:{server.port}"
        return capture, keylog

    def files(self, *words: object) -> list[list[tuple[str, int]]]:
        """The marks of each file that is made."""
        done = run("keylog", *words, "--server", self.server, "--out", self.folder / "made.ttlv")
        self.assertEqual(done.returncode, 0, done.stderr)
        self.assertTrue(done.stdout.startswith("6 calls, 1 open calls, "), done.stdout)
        found = sorted(self.folder.glob("made-0*.ttlv"))
        marks = [kinds(read_marks(str(path))) for path in found]
        for path in found:
            path.unlink()
        return marks

    def test_a_new_file_begins_while_no_call_is_under_way_but_one_that_never_ends(self) -> None:
        need_tshark(self)
        capture, keylog = self.capture()
        first = [("begin", 1), ("end", 1), ("begin", 2)]
        overlapping = [("begin", 3), ("begin", 4), ("end", 4), ("end", 3)]
        late, last = [("begin", 5), ("end", 5)], [("begin", 6), ("end", 6)]
        self.assertEqual(self.files(capture, keylog, "--segment-calls", 2), [first, overlapping, late + last])
        self.assertEqual(self.files(capture, keylog, "--segment-calls", 1),
                         [[("begin", 1), ("end", 1)], [("begin", 2)], overlapping, late, last])
        self.assertEqual(self.files(capture, keylog, "--segment-seconds", 10), [first + overlapping + late, last])


class Needs(Laboratory):
    """What is not there is named."""

    def keylog(self, environment: Optional[dict[str, str]] = None) -> str:
        (self.folder / "keylog").touch()
        done = run_apart("keylog", "capture", "keylog", "--server", "127.0.0.1:5696", "--out", "transcript.ttlv",
                         cwd=self.folder, env=environment)
        self.assertEqual((done.returncode, done.stdout, done.stderr.count("\n")), (1, "", 1))
        self.assertFalse((self.folder / "transcript.ttlv").exists())
        return done.stderr

    def test_without_tshark_its_package_is_named(self) -> None:
        (self.folder / "capture").touch()
        self.assertIn("install it (`apt-get install tshark` on Debian)", self.keylog({"PATH": "/nowhere"}))

    def test_a_capture_that_is_not_there(self) -> None:
        self.assertIn("capture can't be read", self.keylog())


if __name__ == "__main__":
    unittest.main()
