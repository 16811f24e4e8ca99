"""A file that is not translated: each word that goes over it tells it, and `--minor 1` means one thing everywhere."""

from __future__ import annotations

import unittest

import messages
import sessions
from laboratory import InFolder
from messages import asking, begin, end, request, response
from test_blind import record

from kmip_laboratory.glimpse import version_of

STAMP = 1_700_000_000
PASSES = (["list", "t"], ["list", "t", "--call", "1"], ["sift", "t", "--list"], ["sift", "t", "left"],
          ["cut", "t", "files", "--segment-calls", "1"], ["order", "t", "--out", "w"], ["blind", "t", "b"],
          ["shrink", "t", "d", "s"])
TOLD = ("is not translated: it has 2 messages of version 1.2, 1 messages of version 2.0, which the auditor does not "
        "judge; `kmip_record translate` writes them as 2.1")


class Passes(InFolder):
    """The words that go over a transcript."""

    def done(self, words: list[str]) -> str:
        """What is said at these words, whose files are in the folder of the test."""
        names = ("t", "d", "left", "files", "w", "b", "s")
        return record(*(self.folder / word if word in names else word for word in words)).err

    def test_each_word_tells_it(self) -> None:
        (self.folder / "d").write_bytes(sessions.declaration())
        old = [begin(1, messages.get("k", (1, 2))), end(1, messages.not_found(STAMP, (1, 2))),
               begin(2, messages.get("k", (2, 0))), end(2, messages.not_found(STAMP))]
        new = [begin(1, messages.get("k")), end(1, messages.not_found(STAMP))]
        for words in PASSES:
            with self.subTest(words=words):
                (self.folder / "t").write_bytes(messages.transcript(*old))
                self.assertEqual(self.done(words).count(f"kmip_record: {self.folder / 't'} {TOLD}\n"), 1)
                self.clear()
                (self.folder / "t").write_bytes(messages.transcript(*new))
                self.assertNotIn("translated", self.done(words))
                self.clear()

    def clear(self) -> None:
        """Takes away what was made."""
        for name in ("left", "w", "b", "s"):
            (self.folder / name).unlink(missing_ok=True)
        if (self.folder / "files").exists():
            for path in (self.folder / "files").iterdir():
                path.unlink()
            (self.folder / "files").rmdir()

    def test_declare_has_the_version_alone(self) -> None:
        done = record("declare", "--empty", "--out", self.folder / "d", "--minor", "1")
        self.assertEqual((done.status, (self.folder / "d").exists()), (64, False))


class Versions(unittest.TestCase):
    """The version of a message, wherever it stands in it."""

    def test_messages_of_both_sides(self) -> None:
        for protocol in ((1, 0), (1, 4), (2, 0), (2, 1), (3, 7)):
            behind = messages.structure(0x420078, messages.structure(
                0x420077, messages.number(0x42000D, 2, 1), messages.version(*protocol)), asking(0x0A))
            for message in (request(asking(0x0A), protocol=protocol), messages.not_found(STAMP, protocol), behind,
                            response(STAMP, protocol=protocol)):
                self.assertEqual(version_of(message), protocol)
        torn = messages.structure(0x420077, messages.item(0x420069, 1, bytes(24)))
        for message in (b"", b"no message", request(asking(0x0A))[:30], messages.structure(0x420078),
                        messages.structure(0x420078, torn)):
            self.assertIsNone(version_of(message))


if __name__ == "__main__":
    unittest.main()
