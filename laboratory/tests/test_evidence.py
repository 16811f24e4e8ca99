"""A recorder that is killed, whose file is taken away, or whose server never answers: what of a recording is left then,
and what shows that something is missing."""

from __future__ import annotations

import asyncio
import hashlib
import os
import random
import re
import subprocess
import threading
import time
import unittest
from pathlib import Path
from typing import Optional
from unittest import mock

import messages
import stub
from laboratory import RECORDER, SECONDS, Begin, InFolder, Laboratory, Recorder, kinds, read_marks, run, wait_until
from sealed_files import notes
from test_segments import whole

from kmip_laboratory.appending import AppendedFile
from kmip_laboratory.recording import heads
from kmip_laboratory.recording.resealing import new_chain
from kmip_laboratory.recording.syncing import Sync, Syncing
from kmip_laboratory.transcript_writer import TranscriptWriter

STAMP = 1_700_000_000
KILLS = 20
CLIENTS = 4
OLD = ("--format", "1")
IDENTIFIER = 0x420094


def answer(request: bytes) -> bytes:
    """An answer that names what was asked for, so that no two are one."""
    place = request.index(IDENTIFIER.to_bytes(3, "big")) + 8
    return messages.not_found(STAMP, text=request[place:].rstrip(b"\0").decode())


def at_once(peer: stub.ssl.SSLSocket, request: bytes) -> None:
    """Gives it."""
    peer.sendall(answer(request))


class Evidence(Laboratory):
    """A recorder ahead of a server that answers at once."""

    def verified(self, *paths: Path, more: tuple[object, ...] = ()) -> str:
        """What `verify` prints of files that are as they should be."""
        done = run("verify", *paths, *more)
        self.assertEqual((done.returncode, done.stderr), (0, ""))
        return done.stdout

    def asked(self, client: stub.ssl.SSLSocket, name: str) -> bytes:
        """The answer that a client gets; nothing where it gets none."""
        client.sendall(messages.get(name))
        return stub.receive(client)


class SealedRecording(Evidence):
    """A recording of version 2."""

    def test_it_is_whole_and_notes_its_connections(self) -> None:
        recorder = self.start(self.stub(at_once).port, "--note", "of a test")
        client = self.client(recorder.port)
        for name in ("a", "b"):
            self.assertEqual(self.asked(client, name), answer(messages.get(name)))
        bad = self.client(recorder.port, "client-2")
        wrong = messages.structure(0x420078, b"\1" * 8)
        bad.sendall(wrong)
        self.assertEqual(stub.receive(bad), b"")
        wait_until(lambda: recorder.heard("client-2: what came is no Request Message"), "a word")
        last = recorder.end()
        length = recorder.transcript.stat().st_size
        self.assertEqual((last, recorder.status()), (f"2 calls, 0 open calls, {length} bytes", 0))
        self.assertEqual(kinds(recorder.marks()), whole(1, 2))
        self.verified(recorder.transcript)
        self.assertEqual(recorder.transcript.stat().st_mode & 0o777, 0o600)
        found = notes(recorder.transcript)
        self.assertEqual([kind for kind, _ in found][:2] + sorted(kind for kind, _ in found[2:]), [5, 1, 1, 2, 2, 3])
        der = stub.ssl.PEM_cert_to_DER_cert((self.certificates / "client-1.pem").read_text())
        digest = hashlib.sha256(der).hexdigest()
        self.assertRegex(found[1][1], rf"\A127\.0\.0\.1:\d+, certificate SHA-256 {digest}, name client-1\Z")
        (unrecorded,) = [text for kind, text in found if kind == 3]
        self.assertTrue(unrecorded.endswith(f"; {len(wrong)} bytes, SHA-256 {hashlib.sha256(wrong).hexdigest()}"))

    def test_it_is_what_a_recorder_writes_where_nothing_else_is_asked(self) -> None:
        for words, version in (((), 2), (("--format", "2"), 2), (OLD, 1)):
            recorder = self.start(self.stub(at_once).port, *words)
            self.asked(self.client(recorder.port), "a")
            recorder.end()
            self.assertEqual(recorder.transcript.read_bytes()[8:24], messages.number(0x540002, 2, version))
            self.assertEqual(kinds(recorder.marks()), whole(1))
            recorder.transcript.unlink()

    def test_segments_go_on_behind_each_other(self) -> None:
        recorder = self.start(self.stub(at_once).port, "--segment-calls", "2", "--heads",
                              str(self.folder / "heads"))
        client = self.client(recorder.port)
        for number in range(5):
            self.asked(client, str(number))
        recorder.end()
        files = sorted(self.folder.glob("transcript-*.ttlv"))
        told = self.verified(*files, more=("--heads", self.folder / "heads"))
        self.assertEqual([line.split(" segment ")[1][0] for line in told.splitlines()], ["1", "2", "3"])
        lines = (self.folder / "heads").read_text().splitlines()
        self.assertEqual([line[-64:] for line in lines], [line[-64:] for line in told.splitlines()])
        self.assertRegex(lines[0], r"\Arecording \S+ segment 1 records 5 moment \d{4}-\d\d-\d\dT[\d:]{8}\.\d{6}Z head ")
        self.assertIn("does not go on where the file before it ends", run("verify", files[0], files[2]).stderr)

    def test_heads_on_standard_output_and_words_that_are_no_use(self) -> None:
        recorder = self.start(self.stub(at_once).port, "--heads", "-")
        first, last = recorder.end().split("\n")
        self.assertEqual(f"{recorder.transcript}: {re.sub(' moment [^ ]*', '', first)}\n", self.verified(recorder.transcript))
        self.assertTrue(last.startswith("0 calls, 0 open calls, "))
        for words in ((*OLD, "--heads", "-"), (*OLD, "--note", "x"), ("--sync", "often"), ("--format", "3")):
            refused = self.start(1, *words)
            wait_until(lambda: refused.status() is not None, "its end")  # pylint: disable=cell-var-from-loop
            self.assertEqual(refused.status(), 64, refused.said)


class Gone(Evidence):
    """A file that is taken away from the recorder."""

    def lost(self, take: object, *words: str) -> Recorder:
        """A recorder whose file is taken so after its first call: the second call gets no answer, nor comes to the
        server, and the recorder ends."""
        server = self.stub(at_once)
        recorder = self.start(server.port, *words)
        client = self.client(recorder.port)
        self.assertEqual(self.asked(client, "a"), answer(messages.get("a")))
        take(recorder.transcript)
        self.assertEqual(self.asked(client, "b"), b"")
        wait_until(lambda: recorder.status() is not None, "its end")
        self.assertEqual(recorder.status(), 1)
        self.assertNotIn(messages.get("b"), server.got)
        return recorder

    def test_one_that_was_removed(self) -> None:
        for words in ((), OLD, ("--sync", "always"), ("--sync", "none")):
            with self.subTest(words):
                recorder = self.lost(Path.unlink, *words)
                self.assertTrue(recorder.heard("transcript.ttlv is gone: it was removed while it was recorded"))

    def test_one_that_was_cut(self) -> None:
        for words in ((), OLD, ("--sync", "none")):
            with self.subTest(words):
                recorder = self.lost(lambda path: os.truncate(path, 0), *words)
                self.assertTrue(recorder.heard("were written: somebody else cut or wrote it. Nothing goes on"))
                recorder.transcript.unlink()

    def test_one_that_is_a_link_or_there(self) -> None:
        (self.folder / "transcript.ttlv").symlink_to(self.folder / "elsewhere")
        recorder = self.start(self.stub(at_once).port)
        wait_until(lambda: recorder.status() is not None, "its end")
        self.assertEqual(recorder.status(), 1)
        self.assertTrue(recorder.heard("transcript.ttlv is there already"))
        self.assertFalse((self.folder / "elsewhere").exists())

    def test_one_that_is_gone_at_the_end(self) -> None:
        recorder = self.start(self.stub(at_once).port)
        recorder.transcript.unlink()
        recorder.end()
        self.assertEqual(recorder.status(), 1)
        self.assertTrue(recorder.heard("is gone"))


class Opened(InFolder):
    """How a recording's file is opened."""

    def test_once_as_a_new_one_that_is_appended_to_and_behind_no_link(self) -> None:
        path, opened = str(self.folder / "t"), []
        really = os.open

        def seen(name: str, flags: int, *more: int) -> int:
            opened.append((name, flags, *more))
            return really(name, flags, *more)

        with mock.patch("os.open", seen), TranscriptWriter(path, chain=new_chain()) as writer:
            for name in ("a", "b"):
                writer.end(writer.begin("client", messages.get(name)), answer(messages.get(name)))
        new = os.O_WRONLY | os.O_APPEND | os.O_CREAT | os.O_EXCL | os.O_NOFOLLOW
        self.assertEqual([each for each in opened if each[0] == path], [(path, new, 0o600)])


class Custody(InFolder):
    """The commands of docs/EVIDENCE.md."""

    def done(self, *words: str) -> str:
        """What openssl says, where it ends well."""
        done = subprocess.run(["openssl", *words], cwd=self.folder, capture_output=True, text=True, check=False)
        self.assertEqual(done.returncode, 0, done.stderr)
        return done.stdout + done.stderr

    def test_heads_are_signed_and_stamped(self) -> None:
        (self.folder / "heads.txt").write_text("recording 7b0c segment 1 records 2 moment x head y\n")
        self.done("genpkey", "-algorithm", "ed25519", "-out", "custodian.key")
        self.done("pkey", "-in", "custodian.key", "-pubout", "-out", "custodian.pem")
        self.done("pkeyutl", "-sign", "-rawin", "-inkey", "custodian.key", "-in", "heads.txt", "-out", "heads.sig")
        self.assertIn("Verified Successfully", self.done("pkeyutl", "-verify", "-rawin", "-pubin", "-inkey", "custodian.pem",
                                                         "-in", "heads.txt", "-sigfile", "heads.sig"))
        self.done("genpkey", "-algorithm", "EC", "-pkeyopt", "ec_paramgen_curve:P-256", "-out", "custodian.key")
        self.done("pkey", "-in", "custodian.key", "-pubout", "-out", "custodian.pem")
        self.done("dgst", "-sha256", "-sign", "custodian.key", "-out", "heads.sig", "heads.txt")
        self.assertIn("Verified OK", self.done("dgst", "-sha256", "-verify", "custodian.pem", "-signature", "heads.sig",
                                               "heads.txt"))
        self.done("ts", "-query", "-data", "heads.txt", "-sha256", "-cert", "-out", "heads.tsq")
        self.stamped()
        verify = ("ts", "-verify", "-data", "heads.txt", "-in", "heads.tsr", "-CAfile", "authority.pem")
        self.assertIn("Verification: OK", self.done(*verify))
        (self.folder / "heads.txt").write_text("another\n")
        self.assertNotEqual(subprocess.run(["openssl", *verify], cwd=self.folder, capture_output=True, check=False).returncode, 0)

    def stamped(self) -> None:
        """The answer of a stamping authority of our own to the question."""
        (self.folder / "tsa.conf").write_text(
            "[tsa]\ndefault_tsa=of\n[of]\nserial=serial\ndefault_policy=1.2.3\ndigests=sha256\nsigner_digest=sha256\n")
        (self.folder / "serial").write_text("01\n")
        self.done("req", "-x509", "-newkey", "ec", "-pkeyopt", "ec_paramgen_curve:P-256", "-nodes", "-subj", "/CN=stamps",
                  "-days", "2", "-keyout", "tsa.key", "-out", "authority.pem", "-addext",
                  "extendedKeyUsage=critical,timeStamping")
        self.done("ts", "-reply", "-config", "tsa.conf", "-queryfile", "heads.tsq", "-signer", "authority.pem", "-inkey",
                  "tsa.key", "-out", "heads.tsr")


class Killed(Evidence):
    """kill -9, and what goes on behind it."""

    def load(self, port: int, got: dict[bytes, bytes], stop: threading.Event) -> list[threading.Thread]:
        """Clients that ask until they are told to stop, or get no answer any more; `got` has what they got."""
        def ask(number: int) -> None:
            try:
                client = self.client(port, f"client-{number}")
                while not stop.is_set():
                    request = messages.get(f"{number} {random.getrandbits(64)}")
                    client.sendall(request)
                    received = stub.receive(client)
                    if len(received) < 8 or received != answer(request):
                        return
                    got[request] = received
            except OSError:
                return

        made = [threading.Thread(target=ask, args=(number,)) for number in range(CLIENTS)]
        for each in made:
            each.start()
        return made

    def see_all(self, got: dict[bytes, bytes]) -> None:
        """Each answer that a client got is in the recording, as the answer to its request."""
        found: dict[bytes, bytes] = {}
        requests: dict[int, bytes] = {}
        for mark in read_marks(str(self.folder / "transcript.ttlv")):
            if isinstance(mark, Begin):
                requests[mark.call] = mark.message
            else:
                found[requests[mark.call]] = mark.message
        self.assertEqual({request: found.get(request) for request in got}, got)

    def test_no_answer_that_a_client_got_is_lost(self) -> None:
        server, got = self.stub(at_once), {}
        for turn in range(KILLS):
            recorder = self.start(server.port, *(["--resume"] if turn else []))
            clients = self.load(recorder.port, got, threading.Event())
            before = len(got)
            wait_until(lambda: len(got) > before + CLIENTS, "answers")  # pylint: disable=cell-var-from-loop
            time.sleep(random.random() / 20)
            recorder.kill()
            for client in clients:
                client.join(SECONDS)
        recorder = self.start(server.port, "--resume")
        recorder.end()
        self.see_all(got)
        self.verified(recorder.transcript)
        self.assertEqual(sum(kind == 4 for kind, _ in notes(recorder.transcript)), KILLS)

    def killed(self, *words: str, calls: int = 1) -> Path:
        """The last file of a recorder that is killed behind so many calls."""
        recorder = self.start(self.stub(at_once).port, *words)
        client = self.client(recorder.port)
        for number in range(calls):
            self.asked(client, str(number))
        recorder.kill()
        return max(self.folder.glob("transcript*.ttlv"))

    def resumed(self, *words: str) -> Recorder:
        """A recorder that goes on, has one more call, and ends."""
        recorder = self.start(self.stub(at_once).port, "--resume", *words)
        self.asked(self.client(recorder.port), "more")
        self.last = recorder.end()
        self.assertEqual(recorder.status(), 0, recorder.said)
        return recorder

    def test_a_torn_end_is_kept_beside_the_file_and_numbers_and_seals_go_on(self) -> None:
        for words in ((), OLD):
            with self.subTest(words):
                path = self.killed(*words)
                data = path.read_bytes()
                path.write_bytes(data[:-9])
                recorder = self.resumed()
                torn = self.folder / "transcript.ttlv.torn-1"
                kept = torn.read_bytes()
                self.assertTrue(recorder.heard(f"{len(kept)} torn bytes are kept beside it"))
                self.assertEqual(path.read_bytes()[:len(data) - 9 - len(kept)] + kept, data[:-9])
                self.assertEqual(kinds(recorder.marks()), [("begin", 1), *whole(2)])
                self.assertEqual(self.last, f"2 calls, 1 open calls, {path.stat().st_size} bytes")
                if words != OLD:
                    self.verified(path)
                    self.assertIn((4, f"resumed after {len(kept)} torn bytes"), notes(path))
                torn.unlink()
                path.unlink()

    def test_what_can_not_be_gone_on_behind(self) -> None:
        path = self.killed()
        for make, words, told in (
                (lambda: None, OLD, "is of version 2: give its --format"),
                (lambda: self.resumed(), (), "is closed, and nothing goes on behind that"),
                (path.unlink, (), "to go on behind: leave --resume away"),
                (lambda: path.write_bytes(b"mine"), (), "")):
            make()
            recorder = self.start(self.stub(at_once).port, "--resume", *words)
            wait_until(lambda: recorder.status() is not None, "its end")  # pylint: disable=cell-var-from-loop
            self.assertEqual(recorder.status(), 1, recorder.said)
            self.assertTrue(recorder.heard(told), recorder.said)

    def test_one_of_version_1_is_gone_on_behind_without_heads(self) -> None:
        self.killed(*OLD)
        recorder = self.start(self.stub(at_once).port, "--resume", "--heads", "-")
        wait_until(lambda: recorder.status() is not None, "its end")
        self.assertEqual(recorder.status(), 1, recorder.said)
        self.assertTrue(recorder.heard("transcript.ttlv is of version 1, and has no heads: leave --heads away"))

    def test_a_recorder_under_way_is_not_gone_on_behind(self) -> None:
        self.start(self.stub(at_once).port)
        second = self.start(self.stub(at_once).port, "--resume")
        wait_until(lambda: second.status() is not None, "its end")
        self.assertEqual(second.status(), 1)
        self.assertTrue(second.heard("is written by another recorder"))

    def test_segments(self) -> None:
        words = ("--segment-calls", "2")
        for damage in (lambda path: None, lambda path: path.unlink(), lambda path: os.truncate(path, 30)):
            last = self.killed(*words, calls=3)
            self.assertEqual(last.name, "transcript-0002.ttlv")
            damage(last)
            self.resumed("--segment-calls", "2")
            files = sorted(self.folder.glob("transcript-*.ttlv"))
            self.assertEqual(len(self.verified(*files).splitlines()), 2)
            marks = [mark for path in files for mark in kinds(read_marks(str(path)))]
            numbers = [call for kind, call in marks if kind == "begin"]
            self.assertEqual(numbers, list(range(1, len(numbers) + 1)))
            for path in self.folder.iterdir():
                path.unlink()


class Late(Evidence):
    """A call that takes longer than --hold."""

    def late(self, *words: str) -> tuple[list[Path], Recorder]:
        """The files of a recording whose first call is answered when the second file has begun."""
        may = threading.Event()

        def answering(peer: stub.ssl.SSLSocket, request: bytes) -> None:
            if b"slow" in request:
                may.wait(SECONDS)
            at_once(peer, request)

        server = self.stub(answering)
        recorder = self.start(server.port, "--segment-calls", "1", "--hold", "100", *words)
        slow, quick = self.client(recorder.port), self.client(recorder.port, "client-2")
        slow.sendall(messages.get("slow"))
        wait_until(lambda: server.got, "the slow request at the server")
        self.assertEqual(self.asked(quick, "q"), answer(messages.get("q")))
        may.set()
        self.assertEqual(stub.receive(slow), answer(messages.get("slow")))
        self.assertTrue(recorder.end().startswith("2 calls, 1 open calls, "))
        self.assertTrue(recorder.heard("call 1 was under way for all of --hold, and stays open in "), recorder.said)
        files = sorted(self.folder.glob("transcript-*.ttlv"))
        self.assertEqual([kinds(read_marks(str(path))) for path in files], [[("begin", 1)], whole(2)])
        return files, recorder

    def test_its_end_mark_is_a_note(self) -> None:
        files, _ = self.late()
        self.verified(*files)
        came = answer(messages.get("slow"))
        self.assertIn((3, "the answer to call 1, which stays open in its file, came too late for that; "
                       f"{len(came)} bytes, SHA-256 {hashlib.sha256(came).hexdigest()}"), notes(files[1]))

    def test_in_version_1_it_is_told(self) -> None:
        _, recorder = self.late(*OLD)
        self.assertTrue(recorder.heard("the answer to call 1, which stays open in its file, came too late for that: "))


class Disk(Evidence):
    """A message goes on when its mark is on the disk."""

    def timed(self, *words: str) -> tuple[float, int]:
        """How long a call takes where each wait for the disk takes 0.2 s, and how many there were."""
        program = self.folder / "slow"
        program.write_text(f"import os, sys, time\nsys.path.insert(0, {str(RECORDER.parent)!r})\n"
                           "def slow(number):\n    time.sleep(0.2)\n    print('sync', file=sys.stderr, flush=True)\n"
                           "os.fdatasync = slow\nfrom kmip_laboratory.recording.words import main\nsys.exit(main())\n")
        recorder = self.start(self.stub(at_once).port, *words, program=program)
        client = self.client(recorder.port)
        began = time.monotonic()
        self.asked(client, "a")
        waited = time.monotonic() - began
        recorder.end()
        recorder.transcript.unlink()
        return waited, recorder.said.count("sync")

    def test_both_marks_are_waited_for(self) -> None:
        for words in ((), ("--sync", "group"), ("--sync", "always"), OLD):
            with self.subTest(words):
                waited, count = self.timed(*words)
                self.assertGreaterEqual(waited, 0.4)
                self.assertEqual(count, 3, "one for each mark, and one at the end")
        self.assertEqual(self.timed("--sync", "none")[1], 1, "that at the end")


class Group(InFolder):
    """One call of the disk for all that wait."""

    def test_those_that_wait_together_are_served_together(self) -> None:
        file = AppendedFile(str(self.folder / "t"))
        self.addCleanup(file.close)
        calls: list[int] = []

        async def settle_all() -> Optional[int]:
            syncing = Syncing(Sync.GROUP, lambda: [file], lambda files: None)
            first = asyncio.ensure_future(syncing.settle())
            await asyncio.sleep(0.05)
            others = [asyncio.ensure_future(syncing.settle()) for _ in range(30)]
            await first
            self.assertFalse(any(each.done() for each in others), "theirs was not under way when they came")
            await asyncio.gather(*others)
            return len(calls)

        def slow(number: int) -> None:
            time.sleep(0.2)
            calls.append(number)

        with mock.patch("os.fdatasync", slow):
            self.assertEqual(asyncio.run(settle_all()), 2)

    def test_what_was_written_since_a_call_of_the_disk_began_is_brought_there_by_another(self) -> None:
        first, second = AppendedFile(str(self.folder / "1")), AppendedFile(str(self.folder / "2"))
        self.addCleanup(second.close)
        behind, synced = [], []

        def settled(files: list[AppendedFile]) -> None:
            for file in [file for file in files if file in behind]:
                behind.remove(file)
                file.close()

        def slow(number: int) -> None:
            length = os.fstat(number).st_size
            time.sleep(0.2)
            synced.append(length)

        async def finish_one() -> None:
            syncing = Syncing(Sync.GROUP, lambda: [*behind, second] if behind else [first], settled)
            early = asyncio.ensure_future(syncing.settle())
            await asyncio.sleep(0.05)
            first.append(b"close")
            behind.append(first)
            await asyncio.gather(early, syncing.settle())

        with mock.patch("os.fdatasync", slow):
            asyncio.run(finish_one())
        self.assertIn(len(b"close"), synced)
        self.assertEqual(behind, [])
        with self.assertRaises(OSError):
            first.see_whole()

    def test_heads_that_nobody_reads_are_left_out(self) -> None:
        reader, writer = os.pipe()
        self.addCleanup(os.close, reader)
        self.addCleanup(os.close, writer)
        os.set_blocking(writer, False)
        with self.assertRaises(BlockingIOError):
            while True:
                os.write(writer, b"x")
        os.set_blocking(writer, True)
        told = heads.Heads("-")
        with mock.patch.object(told, "_number", writer), mock.patch("kmip_laboratory.recording.heads.say") as said:
            told.tell("head 1\n")
        said.assert_called_once_with("a head could not be written to -: nobody reads there; it was head 1")

    def test_a_head_is_told_each_minute_once_it_is_on_the_disk(self) -> None:
        self.assertEqual(heads.SECONDS_BETWEEN, 60)
        files = mock.Mock()
        settled: list[str] = []

        async def settle() -> None:
            settled.append("settled")

        files.settle = settle
        files.head_line.side_effect = lambda: f"head {len(settled)}"

        async def some() -> None:
            with mock.patch("kmip_laboratory.recording.heads.SECONDS_BETWEEN", 0.01):
                telling = asyncio.ensure_future(heads.tell_each_minute(files))
                while files.tell_head.call_count < 2 and not telling.done():
                    await asyncio.sleep(0.01)
                telling.cancel()

        asyncio.run(asyncio.wait_for(some(), SECONDS))
        self.assertEqual(files.tell_head.call_args_list[:2], [mock.call("head 0"), mock.call("head 1")])


if __name__ == "__main__":
    unittest.main()
