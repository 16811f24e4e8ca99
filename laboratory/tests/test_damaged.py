"""Transcripts whose messages are damaged: each word that reads them comes to its end, and says why where it does not."""

from __future__ import annotations

import contextlib
import io
import random
import shutil
import unittest

import messages
import sessions
from laboratory import InFolder

from kmip_laboratory.recording.words import main

WORDS = (["translate", "t", "o"], ["sift", "t", "o", "--forget", "State"], ["sift", "t", "--list"], ["list", "t"],
         ["list", "t", "--call", "3"], ["blind", "t", "o"], ["cut", "t", "c", "--segment-calls", "9"],
         ["order", "t", "--out", "o"])
VERSIONS = {(1, 2): messages.version(1, 2), (2, 1): messages.version(2, 1)}
TRIES, CALLS = 40, 30


class Damaged(InFolder):
    """One message of three has a bit or a byte that is another."""

    def test_every_word_comes_to_its_end(self) -> None:
        chance = random.Random(5)
        for number in range(TRIES):
            (self.folder / "t").write_bytes(self.damaged(chance, number))
            for words in WORDS:
                with self.subTest(number=number, word=words[:3]):
                    self.done(words)

    def done(self, words: list[str]) -> None:
        """Does what the words say; what it prints is one line at least, and no exception comes of it."""
        for name in ("o", "c"):
            path = self.folder / name
            shutil.rmtree(path) if path.is_dir() else path.unlink(missing_ok=True)
        printed, said = io.TextIOWrapper(io.BytesIO(), "utf-8"), io.StringIO()
        with contextlib.redirect_stdout(printed), contextlib.redirect_stderr(said):
            status = main([str(self.folder / word) if word in ("t", "o", "c") else word for word in words])
        self.assertIn(status, (0, 1))
        self.assertTrue(status == 0 or said.getvalue().count("\n") == 1, said.getvalue())
        self.assertEqual(status == 1 and (self.folder / "o").exists(), False)

    def damaged(self, chance: random.Random, number: int) -> bytes:
        """A transcript in an older version or in 2.1, in turn."""
        server, marks = sessions.Server(number), []
        server.declare()
        for call in range(1, CALLS + 1):
            asked, answered = (self.turned(chance, self.said_in(number, message)) for message in server.call())
            marks += [messages.begin(call, asked), messages.end(call, answered)]
        return messages.transcript(*marks)

    def said_in(self, number: int, message: bytes) -> bytes:
        return message.replace(VERSIONS[2, 1], VERSIONS[1, 2] if number % 2 else VERSIONS[2, 1])

    def turned(self, chance: random.Random, message: bytes) -> bytes:
        data = bytearray(message)
        if chance.random() < 1 / 3:
            data[chance.randrange(len(data))] ^= 1 << chance.randrange(8)
            if chance.random() < 0.3:
                data[chance.randrange(len(data))] = chance.randrange(256)
        return bytes(data)


if __name__ == "__main__":
    unittest.main()
