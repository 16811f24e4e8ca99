"""Recordings of a real PyKMIP server and real PyKMIP clients, judged by the auditor."""

from __future__ import annotations

import subprocess
import unittest
from pathlib import Path

import messages
import stub
from capturing import captured, need_tshark
from key_server import WithPyKmip
from laboratory import Begin, audit, read_marks, run

from kmip_laboratory import ttlv

CLIENTS = 6
ROUNDS = 3
# Of each round: the life of a key, and the meeting on the shared one; besides, the registration of that.
CALLS = CLIENTS * ROUNDS * (9 + 4) + 1


class ByProxy(WithPyKmip):
    """What goes by the recorder."""

    def test_clients_at_once_are_explained_by_the_order_of_the_server(self) -> None:
        recorder = self.start(self.server_port, "--minor", "1")
        self.work(recorder.port, CLIENTS, ROUNDS)
        self.assertTrue(recorder.end().startswith(f"{CALLS} calls, 0 open calls, "))
        marks = recorder.marks()
        self.assertEqual({mark.client for mark in marks if isinstance(mark, Begin)},
                         {f"client-{number}" for number in range(CLIENTS + 1)})
        self.write_witness(marks)
        run("declare", "--empty", "--out", self.folder / "declaration.ttlv")
        self.assertEqual(audit(self.folder), "yes\n")

    def test_version_2_0_as_it_came_is_outside(self) -> None:
        recorder = self.start(self.server_port)
        self.work(recorder.port, 1, 0)
        recorder.end()
        run("declare", "--empty", "--out", self.folder / "declaration.ttlv")
        run("order", recorder.transcript, "--out", self.folder / "witness.ttlv")
        self.assertEqual(audit(self.folder), "outside: call 1 request item 0 kind 2 Version\n")


    def test_clients_of_1_2_are_judged_once_they_are_translated(self) -> None:
        recorder = self.start(self.server_port)
        self.work(recorder.port, 1, 1, version="1.2")
        recorder.end()
        run("declare", "--empty", "--out", self.folder / "declaration.ttlv")
        run("order", recorder.transcript, "--out", self.folder / "witness.ttlv")
        self.assertEqual(audit(self.folder), "outside: call 1 request item 0 kind 2 Version\n")
        done = run("translate", recorder.transcript, self.folder / "new.ttlv")
        self.assertEqual(done.stdout, "28 messages translated, 0 left as they are\n", done.stderr)
        self.assertEqual(audit(self.folder, "new.ttlv"), "yes\n")
        self.declared_in_1_2()

    def declared_in_1_2(self) -> None:
        """A server can be asked in 1.2 what it holds: of the recorder an Active key, and of a client a new one."""
        certificates = self.certificates
        self.work(self.server_port, 1, 0, version="1.2")
        done = run("declare", "--server", f"127.0.0.1:{self.server_port}", "--version", "1.2", "--out",
                   self.folder / "asked.ttlv", "--server-cert", certificates / "recorder.pem", "--server-key",
                   certificates / "recorder.key", "--server-ca", certificates / "authority.pem", "--as",
                   f"client-0={certificates / 'client-0.pem'},{certificates / 'client-0.key'}")
        self.assertEqual((done.returncode, done.stdout), (0, "0 rows, 1 entries, 1 owners\n"), done.stderr)
        self.assertIn("the server is asked in version 1.2", done.stderr)
        shared = ttlv.read_item((self.folder / "asked.ttlv").read_bytes()[88:])
        told = shared.first(0x420125, ttlv.Kind.STRUCTURE)
        self.assertEqual(told.first(0x420028, ttlv.Kind.ENUMERATION).value, 3)
        self.assertEqual(told.first(0x42002A, ttlv.Kind.INTEGER).value, 256)
        self.assertEqual(len(told.every(0x420053, ttlv.Kind.STRUCTURE)), 1)


class ByKeyLog(WithPyKmip):
    """What a capture of the loopback saw, and the clients' key log."""

    def setUp(self) -> None:
        need_tshark(self)
        super().setUp()

    def test_clients_at_once_are_explained_by_the_order_of_the_server(self) -> None:
        keylog, transcript = self.folder / "keylog", self.folder / "transcript.ttlv"
        with captured(self, self.server_port) as capture:
            self.work(self.server_port, CLIENTS, ROUNDS, keylog)
        done = run("keylog", capture, keylog, "--server", f"127.0.0.1:{self.server_port}",
                   "--minor", "1", "--out", transcript)
        self.assertEqual(done.returncode, 0, done.stderr)
        self.assertTrue(done.stdout.startswith(f"{CALLS} calls, 0 open calls, "))
        marks = read_marks(str(transcript))
        self.assertEqual({mark.client for mark in marks if isinstance(mark, Begin)},
                         {f"client-{number}" for number in range(CLIENTS + 1)})
        self.write_witness(marks)
        run("declare", "--empty", "--out", self.folder / "declaration.ttlv")
        self.assertEqual(audit(self.folder), "yes\n")
        self.refused(capture, keylog)

    def refused(self, capture: Path, keylog: Path) -> None:
        """Without some of the secrets, or of another server, no transcript is made."""
        less = self.folder / "less"
        less.write_text("".join(keylog.read_text().splitlines(keepends=True)[:-1]))
        for secrets, port, words in ((less, self.server_port, "said can't be read: "),
                                     (keylog, self.server_port + 1, "has no packet to or from 127.0.0.1:")):
            done = run("keylog", capture, secrets, "--server", f"127.0.0.1:{port}", "--out", self.folder / "none")
            self.assertEqual(done.returncode, 1)
            self.assertIn(words, done.stderr)
            self.assertFalse((self.folder / "none").exists())


class Declared(WithPyKmip):
    """Declarations that a live server's answers make."""

    def test_a_declared_key_is_known_with_its_bytes_and_without(self) -> None:
        self.record(lambda port: self.work(port, 1, 0), "before.ttlv")
        for words in ((), ("--bytes",)):
            done = self.declare(*words)
            self.assertEqual((done.returncode, done.stdout), (0, "0 rows, 1 entries\n"), done.stderr)
            self.record(lambda port: self.get("1", port), "after.ttlv")
            run("order", self.folder / "after.ttlv", "--out", self.folder / "witness.ttlv", "--force")
            self.assertEqual(audit(self.folder, "after.ttlv"), "yes\n")
        path = self.folder / "declaration.ttlv"
        path.write_bytes(path.read_bytes()[:-1] + bytes([path.read_bytes()[-1] ^ 1]))
        self.assertEqual(audit(self.folder, "after.ttlv").splitlines()[0], "no: turn 1 call 1 item 1 why 9 BytesDiffer")

    def test_what_the_server_does_not_tell_is_said(self) -> None:
        self.record(lambda port: self.work(port, 1, 1), "before.ttlv")
        done = self.declare()
        self.assertEqual((done.returncode, done.stdout), (0, "0 rows, 0 entries\n"))
        self.assertIn("object 1: left out, for the server says that it is Active, and tells no date that", done.stderr)

    def test_a_server_of_2_0_is_asked_in_2_0(self) -> None:
        done = run("declare", "--server", f"127.0.0.1:{self.server_port}", *self.certificate_words(), "--out",
                   self.folder / "declaration.ttlv")
        self.assertEqual(done.returncode, 1)
        self.assertIn("servers of older versions need --version, as 2.0 or 1.2", done.stderr)

    def record(self, work: object, name: str) -> None:
        recorder = self.start(self.server_port, "--minor", "1")
        work(recorder.port)
        recorder.end()
        recorder.transcript.rename(self.folder / name)

    def get(self, identifier: str, port: int) -> None:
        client = self.client(port)
        client.sendall(messages.get(identifier, (2, 0)))
        stub.receive(client)
        client.close()

    def declare(self, *words: str) -> subprocess.CompletedProcess:
        return run("declare", "--server", f"127.0.0.1:{self.server_port}", *self.certificate_words(), "--version", "2.0",
                   *words, "--out", self.folder / "declaration.ttlv", "--force")

    def certificate_words(self) -> list:
        return ["--server-cert", self.certificates / "recorder.pem", "--server-key", self.certificates / "recorder.key",
                "--server-ca", self.certificates / "authority.pem"]


if __name__ == "__main__":
    unittest.main()
