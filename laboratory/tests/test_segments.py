"""Recordings of several files, each of which begins while no call is under way."""

from __future__ import annotations

import os
import threading
import time
import unittest
from pathlib import Path

import messages
import stub
from laboratory import SECONDS, InFolder, Laboratory, kinds, read_marks, run, wait_until
from messages import begin, end

STAMP = 1_700_000_000


def calls_of(folder: Path) -> list[list[tuple[str, int]]]:
    """The marks of each file of a folder, in the order of the files' names."""
    return [kinds(read_marks(str(path))) for path in sorted(folder.glob("*-0*.ttlv"))]


def whole(*numbers: int) -> list[tuple[str, int]]:
    """The marks of these calls, one after the other."""
    return [mark for number in numbers for mark in (("begin", number), ("end", number))]


class Cut(InFolder):
    """The word `cut`."""

    def cut(self, marks: list[bytes], *words: object) -> list[list[tuple[str, int]]]:
        """The files that become of these marks."""
        data = messages.transcript(*marks)
        (self.folder / "long").write_bytes(data)
        done = run("cut", "long", "short", *words, cwd=self.folder)
        self.assertEqual(done.returncode, 0, done.stderr)
        self.said = done.stderr + done.stdout
        files = sorted((self.folder / "short").iterdir())
        self.assertEqual(messages.transcript(*(path.read_bytes()[24:] for path in files)), data, "nothing is lost")
        found = calls_of(self.folder / "short")
        for path in files:
            path.unlink()
        (self.folder / "short").rmdir()
        return found

    def call(self, number: int, stamp: int = STAMP) -> list[bytes]:
        return [begin(number, messages.get("k")), end(number, messages.not_found(stamp))]

    def test_numbers_go_on_from_file_to_file(self) -> None:
        marks = sum((self.call(number) for number in (1, 2, 7, 4, 5)), [])
        self.assertEqual(self.cut(marks, "--segment-calls", 2), [whole(1, 2), whole(7, 4), whole(5)])
        self.assertIn("kmip_record: transcript-0003.ttlv: 1 calls\n3 files, 5 calls\n", self.said)

    def test_a_file_begins_only_where_no_call_is_under_way(self) -> None:
        (first, first_end), (second, second_end), (third, third_end) = (self.call(number) for number in (1, 2, 3))
        marks = [first, second, first_end, third, second_end, third_end, *self.call(4)]
        self.assertEqual(self.cut(marks, "--segment-calls", 1), [
            [("begin", 1), ("begin", 2), ("end", 1), ("begin", 3), ("end", 2), ("end", 3)], whole(4)])
        self.assertIn("transcript-0001.ttlv: 3 calls, more than asked for: calls were under way", self.said)

    def test_a_call_that_never_ended_holds_nothing_up(self) -> None:
        marks = [*self.call(1), begin(2, messages.get("k")), *self.call(3), *self.call(4)]
        self.assertEqual(self.cut(marks, "--segment-calls", 2), [whole(1) + [("begin", 2)], whole(3, 4)])

    def test_seconds_are_those_of_the_answers(self) -> None:
        marks = self.call(1, STAMP) + self.call(2, STAMP + 9) + self.call(3, STAMP + 11) + self.call(4, STAMP + 12)
        self.assertEqual(self.cut(marks, "--segment-seconds", 11), [whole(1, 2, 3), whole(4)])

    def test_calls_by_their_numbers(self) -> None:
        marks = [*whole(1, 2), ("begin", 3), ("begin", 4), ("end", 4), ("end", 3), ("begin", 5), *whole(6)]
        records = [messages.begin(call, messages.get("k")) if kind == "begin" else
                   messages.end(call, messages.not_found(STAMP)) for kind, call in marks]
        (self.folder / "long").write_bytes(messages.transcript(*records))
        for words, first, last, left in (("2-4", 2, 4, 3), ("5", 5, 5, 5), ("4-900", 4, 6, 3), ("1-6", 1, 6, 0)):
            done = run("cut", "long", f"of-{words}", "--calls", words, cwd=self.folder)
            self.assertEqual((done.returncode, done.stdout), (0, f"{last - first + 1} calls\n"), done.stderr)
            self.assertEqual(done.stderr, f"kmip_record: {left} calls are left out: what they did is not known to a search "
                             "of the others\n" if left else "")
            self.assertEqual(kinds(read_marks(str(self.folder / f"of-{words}"))),
                             [mark for mark in marks if first <= mark[1] <= last])
        self.assertIn("long has no call from 7 to 9", self.refused("cut", "long", "short", "--calls", "7-9"))
        for words in (("--calls", "3-2"), ("--calls", "-3"), ("--calls", "1-2", "--segment-calls", "1")):
            self.assertEqual(run("cut", "long", "short", *words, cwd=self.folder).returncode, 64)

    def test_a_pipe_is_not_cut(self) -> None:
        os.mkfifo(self.folder / "pipe")
        for words in (("--segment-calls", 1), ("--calls", "1-2")):
            self.assertIn("pipe is no plain file", self.refused("cut", "pipe", "short", *words))

    def test_what_can_not_be_cut(self) -> None:
        (self.folder / "long").write_bytes(messages.transcript(*self.call(1), *self.call(2))[:-8])
        words = ("--segment-calls", 1)
        self.assertIn("long has no whole record at offset", self.refused("cut", "long", "short", *words))
        self.assertIn("`cut` needs --segment-calls or --segment-seconds", self.refused("cut", "long", "short"))
        (self.folder / "there").mkdir()
        self.assertIn("there is there already", self.refused("cut", "long", "there", *words))
        self.assertEqual(run("cut", "long", "short", "--segment-calls", "0", cwd=self.folder).returncode, 64)


class Segments(Laboratory):
    """The proxy's words `--segment-calls`, `--segment-seconds` and `--hold`."""

    def test_a_new_file_after_so_many_calls(self) -> None:
        server = self.stub(lambda peer, _: peer.sendall(messages.not_found(STAMP)))
        recorder = self.start(server.port, "--segment-calls", "2")
        client = self.client(recorder.port)
        for _ in range(5):
            client.sendall(messages.get("key-1"))
            stub.receive(client)
        last = recorder.end()
        self.assertTrue(last.startswith("5 calls, 0 open calls, "), last)
        self.assertEqual(calls_of(self.folder), [whole(1, 2), whole(3, 4), whole(5)])
        self.assertFalse(recorder.transcript.exists(), "the files have numbers")
        self.assertEqual(sum(path.stat().st_size for path in self.folder.glob("*-0*.ttlv")), int(last.split()[-2]))

    def overlapping(self, hold: str) -> tuple[float, list[list[tuple[str, int]]], list[str]]:
        """How long a request was held while another call is under way, and what was recorded. The other is answered
        when the request has come to the server, or after half a second where it may be held for longer."""
        quick_came = threading.Event()

        def answering(peer: stub.ssl.SSLSocket, request: bytes) -> None:
            if b"slow" in request:
                quick_came.wait(0.5 if int(hold) > 500 else SECONDS)
            else:
                quick_came.set()
            server.gave[request] = server.clock.tick()
            peer.sendall(messages.not_found(STAMP))

        server = self.stub(answering)
        recorder = self.start(server.port, "--segment-calls", "1", "--hold", hold)
        slow, quick = self.client(recorder.port), self.client(recorder.port, "client-2")
        slow.sendall(messages.get("slow"))
        wait_until(lambda: server.got, "the slow request at the server")
        began = time.monotonic()
        quick.sendall(messages.get("quick"))
        stub.receive(quick)
        waited = time.monotonic() - began
        stub.receive(slow)
        self.late = server.got[messages.get("quick")] > server.gave[messages.get("slow")]
        quick.sendall(messages.get("last"))
        stub.receive(quick)
        recorder.end()
        return waited, calls_of(self.folder), recorder.said

    def test_requests_are_held_until_no_call_is_under_way(self) -> None:
        _, files, said = self.overlapping("10000")
        self.assertTrue(self.late, "the quick one went on after the slow one was answered")
        self.assertEqual(files, [whole(1), whole(2), whole(3)])
        self.assertFalse(any("stays open" in line for line in said))

    def test_they_are_held_no_longer_than_they_may_be(self) -> None:
        waited, files, said = self.overlapping("100")
        self.assertFalse(self.late)
        self.assertGreaterEqual(waited, 0.1)
        self.assertEqual(files, [[("begin", 1)], whole(2), whole(3)], "a call that takes longer stays open in its file")
        self.assertTrue(any("call 1 was under way for all of --hold, and stays open in " in line for line in said), said)

    def test_a_new_file_after_so_many_seconds(self) -> None:
        server = self.stub(lambda peer, _: peer.sendall(messages.not_found(STAMP)))
        recorder = self.start(server.port, "--segment-seconds", "1")
        client = self.client(recorder.port)
        for pause in (0, 1.1):
            threading.Event().wait(pause)
            client.sendall(messages.get("key-1"))
            stub.receive(client)
        recorder.end()
        self.assertEqual(calls_of(self.folder), [whole(1), whole(2)])


if __name__ == "__main__":
    unittest.main()
