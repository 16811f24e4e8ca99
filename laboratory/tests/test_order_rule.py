"""The rule that everything rests on: no message goes on ahead of its mark, and no mark stands ahead of its message."""

from __future__ import annotations

import resource
import shutil
import socket
import threading
import time
import unittest
from pathlib import Path

import messages
import stub
from laboratory import FOLDER, RECORDER, SECONDS, Laboratory, Limit, kinds

STAMP = 1_700_000_000
# Of a sealed recording: its header, and the note on the client's connection.
AHEAD_OF_CALLS = 128 + 208
BEGIN_BESIDES_MESSAGE = 104
A_MOMENT = 0.2

SETTLE_LINE = "        await self._way.recording.files.settle()\n"
BEGIN_LINES = "        self.open_call = self._way.recording.begin(self.name, request)\n" + SETTLE_LINE
ASK_LINE = "        response = await self._answer(client, server, request)\n"
END_LINES = """        self._way.recording.end(self.open_call, response)
        self.open_call = None
""" + SETTLE_LINE
SEND_LINE = "        await self._hand_over(client, response)\n"


class OrderRule(Laboratory):
    """The rule, seen from both sides of the recorder."""

    def test_marks_stand_between_the_halves_and_the_next_side(self) -> None:
        seen: list[object] = []
        half, rest = threading.Event(), threading.Event()

        def answering(peer: stub.ssl.SSLSocket, request: bytes) -> None:
            answer = messages.not_found(STAMP)
            peer.sendall(answer[:40])
            half.set()
            rest.wait(SECONDS)
            peer.sendall(answer[40:])

        server = self.stub(answering, first=lambda: seen.append(kinds(recorder.marks())))
        recorder = self.start(server.port)
        client = self.client(recorder.port)
        request = messages.get("key-1")
        client.sendall(request[:50])
        time.sleep(A_MOMENT)
        self.assertEqual((recorder.marks(), seen), ([], []), "half a request is neither marked nor given on")
        client.sendall(request[50:])
        self.assertTrue(half.wait(SECONDS), "half an answer")
        time.sleep(A_MOMENT)
        self.assertEqual(seen, [[("begin", 1)]], "the server's first byte comes behind the begin mark")
        self.assertEqual(kinds(recorder.marks()), [("begin", 1)], "half an answer is not marked")
        client.settimeout(A_MOMENT)
        self.assertRaises(socket.timeout, client.recv, 1)
        client.settimeout(None)
        rest.set()
        answer = stub.receive(client, first=lambda: seen.append(kinds(recorder.marks())))
        self.assertEqual(seen[1], [("begin", 1), ("end", 1)], "the client's first byte comes behind the end mark")
        self.assertEqual((answer, list(server.got)), (messages.not_found(STAMP), [request]))
        self.assertEqual([mark.message for mark in recorder.marks()], [request, answer])

    def test_nothing_goes_on_unmarked(self) -> None:
        self.assertEqual(self.unmarked(RECORDER), [])

    def test_a_begin_mark_behind_its_request_is_caught(self) -> None:
        turned = self.turned(BEGIN_LINES + ASK_LINE, ASK_LINE + BEGIN_LINES)
        self.assertIn("the request went on", self.unmarked(turned))

    def test_an_end_mark_behind_its_answer_is_caught(self) -> None:
        turned = self.turned(END_LINES + SEND_LINE, SEND_LINE + END_LINES)
        self.assertIn("the answer went on", self.unmarked(turned))

    def turned(self, lines: str, others: str) -> Path:
        """A recorder in which these lines stand in the other order."""
        copy = self.folder / "turned"
        shutil.copytree(FOLDER, copy, ignore=shutil.ignore_patterns("tests", "__pycache__"))
        source = (copy / "kmip_laboratory/recording/connection.py").read_text()
        self.assertEqual(source.count(lines), 1)
        (copy / "kmip_laboratory/recording/connection.py").write_text(source.replace(lines, others))
        return copy / "kmip_record"

    def unmarked(self, program: Path) -> list[str]:
        """What went on though the file had no room for its mark: first none for the begin mark, then for the end."""
        request = messages.get("key-1")
        faults = []
        for room, marks in ((60, []), (BEGIN_BESIDES_MESSAGE + len(request) + 60, [("begin", 1)])):
            server = self.stub(lambda peer, _: peer.sendall(messages.not_found(STAMP)))
            recorder = self.start(server.port, program=program, limit=Limit(resource.RLIMIT_FSIZE, AHEAD_OF_CALLS + room))
            client = self.client(recorder.port)
            client.sendall(request)
            faults += ["the answer went on"] if stub.receive(client) else []
            client.close()
            faults += ["the request went on"] if server.got and not marks else []
            self.assertTrue(recorder.last_words().startswith(f"{len(marks)} calls, {len(marks)} open calls"))
            self.assertEqual(kinds(recorder.marks()), marks, "the file is whole")
            self.assertEqual(recorder.status(), 1)
            self.assertTrue(recorder.heard("can't be written: File too large"), recorder.said)
            recorder.transcript.unlink()
        return faults


if __name__ == "__main__":
    unittest.main()
