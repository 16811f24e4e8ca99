"""What a transcript has in it, told call by call; and the account at the end of a recording."""

from __future__ import annotations

import unittest
from pathlib import Path

import messages
import stub
from laboratory import FOLDER, InFolder, Laboratory, run, wait_until

from kmip_laboratory.glimpse import glimpse
from kmip_laboratory.message import Side
from kmip_laboratory.recording.account import Account
from kmip_laboratory.transcript import Begin, End, spelled
from kmip_laboratory.transcript_writer import TranscriptWriter

STAMP = 1_700_000_000
# The transcript that docs/FORMATS.md follows byte by byte.
EXAMPLE = FOLDER.parent / "examples/register_then_get/transcript.ttlv"
ENCRYPT = 0x1F


def asked(operation: int, version: tuple[int, int] = (2, 1)) -> bytes:
    """A request of one item, with an identifier."""
    return messages.get("key-1", version).replace(
        messages.number(0x42005C, 5, 0x0A), messages.number(0x42005C, 5, operation))


def answered(operation: int, status: int) -> bytes:
    """Its answer."""
    header = messages.item(0x42007A, 1, messages.version(2, 1) + messages.number(0x420092, 9, STAMP, 8)
                           + messages.number(0x42000D, 2, 1))
    item = messages.number(0x42005C, 5, operation) + messages.number(0x42007F, 5, status)
    return messages.item(0x42007B, 1, header + messages.item(0x42000F, 1, item))


class Listed(InFolder):
    """The word `list`."""

    def listed(self, *words: object, said: str = "") -> list[str]:
        done = run("list", *words)
        self.assertEqual((done.returncode, done.stderr), (0, said))
        return done.stdout.splitlines()

    def test_a_line_for_each_call(self) -> None:
        self.assertEqual(self.listed(EXAMPLE), [
            "call 1  a  marks 1-2  2023-11-14T22:13:20Z  Register key-1: Success",
            "call 2  a  marks 3-4  2023-11-14T22:13:21Z  Get key-1: Success"])

    def test_calls_that_overlap_failed_and_open_ones(self) -> None:
        path = self.folder / "transcript"
        with TranscriptWriter(str(path)) as transcript:
            first = transcript.begin("one", messages.get("k\x1b"))
            transcript.begin("two", messages.get("k", (1, 2)))
            third = transcript.begin("three", messages.get("k"))
            transcript.end(third, messages.not_found(STAMP))
            transcript.end(first, messages.not_found(STAMP))
        said = (f"kmip_record: {path} is not translated: it has 1 messages of version 1.2, which the auditor does not "
                "judge; `kmip_record translate` writes them as 2.1\n")
        self.assertEqual(self.listed(path, said=said), [
            "call 1  one  marks 1-5  2023-11-14T22:13:20Z  Get k\\u{1b}: Failed (Item Not Found)",
            "call 2  two  marks 2-  -  version 1.2  Get k: no answer",
            "call 3  three  marks 3-4  2023-11-14T22:13:20Z  Get k: Failed (Item Not Found)"])

    def test_calls_of_a_client_an_object_or_an_operation(self) -> None:
        path = self.folder / "transcript"
        located = messages.response(STAMP, messages.answering(0x08, 0, messages.text(0x420094, "k-9")))
        with TranscriptWriter(str(path)) as transcript:
            for client, request, response in (
                    ("alice 127.0.0.1:5", messages.get("k-1"), messages.not_found(STAMP)),
                    ("alice", messages.get("k-2"), messages.not_found(STAMP)),
                    ("bob", messages.request(messages.asking(0x08)), located),
                    ("alicent", messages.request(messages.asking(0x14, messages.text(0x420094, "k-1")), messages.asking(0x18)),
                     messages.refusal(STAMP))):
                transcript.end(transcript.begin(client, request), response)
        for words, calls in ((("--client", "alice"), [1, 2]), (("--client", "bob", "--client", "alicent"), [3, 4]),
                             (("--object", "k-1"), [1, 4]), (("--object", "k-9"), [3]), (("--operation", "get"), [1, 2]),
                             (("--operation", "Query", "--operation", "Locate"), [3, 4]),
                             (("--object", "k-1", "--client", "alice"), [1]), (("--object", "k"), []),
                             (("--client", "alice", "--operation", "Destroy"), [])):
            with self.subTest(words=words):
                self.assertEqual([int(line.split()[1]) for line in self.listed(path, *words)], calls)
        for words in (("--operation", "Fetch"), ("--call", 1, "--client", "alice")):
            self.assertEqual(run("list", path, *words).returncode, 64)

    def test_both_messages_of_a_call_without_its_key_and_with_it(self) -> None:
        lines = self.listed(EXAMPLE, "--call", 2)
        self.assertIn("            Key Material: hidden, 16 bytes", lines)
        self.assertIn('      Unique Identifier: "key-1"', lines)
        self.assertIn("    Time Stamp: 2023-11-14T22:13:21Z", lines)
        self.assertIn("    Operation: Get (A)", lines)
        self.assertIn("            Key Material: 000102030405060708090a0b0c0d0e0f",
                      self.listed(EXAMPLE, "--call", 2, "--keys"))
        self.assertEqual(len(lines), 30)

    def test_what_can_not_be_listed(self) -> None:
        torn = self.folder / "torn"
        torn.write_bytes(EXAMPLE.read_bytes()[:-1])
        for words, said in {(EXAMPLE, "--call", 7): "has no call 7", (torn,): "has no whole record at offset 704",
                            (Path("nothing"),): "nothing can't be read"}.items():
            done = run("list", *words, cwd=self.folder)
            self.assertEqual((done.returncode, done.stderr.count("\n")), (1, 1))
            self.assertIn(said, done.stderr)

    def test_marks_out_of_place_are_told(self) -> None:
        path = self.folder / "transcript"
        path.write_bytes(EXAMPLE.read_bytes()[:24] + spelled(Begin(1, "a", b"")) + 2 * spelled(End(1, b"")))
        self.assertIn("has at offset 104 a second begin mark of call 1, or an end mark", run("list", path).stderr)


class Accounts(Laboratory):
    """What a recording tells of itself."""

    def test_what_is_counted(self) -> None:
        account = Account()
        for call, (request, response) in enumerate((
                (asked(ENCRYPT), answered(ENCRYPT, 0)), (asked(ENCRYPT), answered(ENCRYPT, 1)),
                (messages.get("k"), messages.not_found(STAMP)), (asked(ENCRYPT, (1, 2)), None),
                (asked(ENCRYPT), answered(ENCRYPT, 0)), (asked(0x12), answered(0x12, 2))), 1):
            account.begin(call, glimpse(request, Side.CLIENT))
            if response:
                account.end(call, glimpse(response, Side.SERVER))
        lines = account.lines()
        self.assertEqual(lines[0], "by version: 2.1 5, 1.2 1; by operation: Encrypt 4, Get 1, Activate 1; 2 items "
                                   "failed, 1 calls are open")
        self.assertEqual([line.split(";")[0] for line in lines[1:]], [
            "the auditor will stop at call 1, for Encrypt that did not fail: 2 calls are so",
            "the auditor will stop at call 4, for version 1.2: 1 calls are so",
            "the auditor will stop at call 6, for an answer that is pending: 1 calls are so"])

    def test_the_recorder_tells_it_at_the_end_and_a_wrong_version_at_once(self) -> None:
        server = self.stub(lambda peer, _: peer.sendall(messages.not_found(STAMP, (1, 4))))
        recorder = self.start(server.port)
        client = self.client(recorder.port)
        for _ in range(2):
            client.sendall(messages.get("key-1", (1, 4)))
            stub.receive(client)
        said = "client-1 speaks version 1.4, which the auditor does not judge: `--minor 1` records it as 2.1"
        wait_until(lambda: recorder.heard(said), "a word on the version")
        self.assertTrue(recorder.end().startswith("2 calls, 0 open calls, "))
        self.assertEqual(sum("speaks version" in line for line in recorder.said), 1)
        self.assertTrue(recorder.heard("by version: 1.4 2; by operation: Get 2; 2 items failed, 0 calls are open"))
        self.assertTrue(recorder.heard("the auditor will stop at call 1, for version 1.4: 2 calls are so; "
                                       "`kmip_record translate` writes such calls as 2.1"))


if __name__ == "__main__":
    unittest.main()
