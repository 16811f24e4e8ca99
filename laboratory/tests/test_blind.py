"""The word `blind`: the verdict stays, and the bytes of keys go."""

from __future__ import annotations

import contextlib
import io
import re
import subprocess
import tempfile
import unittest
from pathlib import Path
from typing import Iterator, NamedTuple

import messages
from laboratory import AUDITOR, FOLDER

from kmip_laboratory.blinding import replacing
from kmip_laboratory.recording.words import main
from kmip_laboratory.transcript_writer import TranscriptWriter

EXAMPLES = FOLDER.parent / "examples"
NAMES = ["transcript.ttlv", "declaration.ttlv", "witness.ttlv"]
KEY = bytes(range(100, 116))
KEEP_ALL = [word for each in ("names", "identifiers", "texts") for word in ("--keep", each)]


class Done(NamedTuple):
    """How a word of the recorder ended."""

    status: int
    out: str
    err: str


def record(*words: object) -> Done:
    """Does in this process what kmip_record does at these words."""
    out, err = io.StringIO(), io.StringIO()
    with contextlib.redirect_stdout(out), contextlib.redirect_stderr(err):
        try:
            status = main([str(word) for word in words])
        except SystemExit as ended:
            status = int(ended.code or 0)
    return Done(status, out.getvalue(), err.getvalue())


def verdict(word: str, *files: object) -> tuple[int, str]:
    """The status and the lines of the auditor, but for that of a head: what is blinded bears no seals."""
    done = subprocess.run([AUDITOR, word, *map(str, files)], capture_output=True, text=True, timeout=60, check=False)
    return done.returncode, re.sub(r"^sealed: .*\n\Z", "", done.stdout, flags=re.MULTILINE)


def key_materials(data: bytes) -> set[bytes]:
    """The value of each Key Material that is a Byte String, by the bytes of its header alone."""
    found = set()
    for match in re.finditer(b"\x42\x00\x43\x08", data):
        length = int.from_bytes(data[match.end():match.end() + 4], "big")
        found.add(data[match.end() + 4:match.end() + 4 + length])
    return found


def windows(data: bytes, length: int = 8) -> Iterator[bytes]:
    """All pieces of this length."""
    return (data[place:place + length] for place in range(len(data) - length + 1))


def folders() -> list[Path]:
    """Every example and every recording with a witness, but those that are torn or whose seals aren't right."""
    found = sorted(path.parent for path in EXAMPLES.glob("**/transcript.ttlv") if path.with_name("witness.ttlv").exists())
    broken = ("torn_transcript", "sealed_record_doubled", "sealed_record_turned", "sealed_torn_record", "sealed_without_close")
    return [folder for folder in found if folder.name not in broken]


class Blind(unittest.TestCase):
    """Each test has a folder of its own."""

    def setUp(self) -> None:
        made = tempfile.TemporaryDirectory(prefix="blind-")
        self.addCleanup(made.cleanup)
        self.folder = Path(made.name)

    def blinded(self, sources: list[Path], *more: object) -> list[Path]:
        """Blinds these files into a new folder."""
        target = Path(tempfile.mkdtemp(dir=self.folder))
        targets = [target / source.name for source in sources]
        done = record("blind", *sources, *targets, *more)
        self.assertEqual(done.status, 0, done.err)
        return targets

    def transcript(self, *pairs: tuple[bytes, bytes], client: str = "a") -> Path:
        """A transcript of these requests and responses."""
        path = self.folder / f"made-{len(list(self.folder.iterdir()))}.ttlv"
        with TranscriptWriter(str(path)) as writer:
            for request, response in pairs:
                writer.end(writer.begin(client, request), response)
        return path

    def test_the_verdict_of_every_example_and_recording_stays(self) -> None:
        self.assertGreater(len(folders()), 40)
        for folder in folders():
            sources = [folder / name for name in NAMES]
            before = verdict("check", *sources)
            searches = (folder / "search").exists() or folder.parent.name == "recorded"
            searched = verdict("search", *sources[:2], self.folder / "found") if searches else None
            for more in ([], KEEP_ALL):
                with self.subTest(folder.name, more=more):
                    targets = self.blinded(sources, *more)
                    self.assertEqual(verdict("check", *targets), before)
                    if searches:
                        self.assertEqual(verdict("search", *targets[:2], self.folder / "again"), searched)

    def test_no_window_of_a_key_is_left(self) -> None:
        seen = 0
        for folder in folders():
            sources = [folder / name for name in NAMES]
            secrets = set().union(*(key_materials(source.read_bytes()) for source in sources))
            wanted = {window for secret in secrets for window in windows(secret)}
            seen += len(wanted)
            for target in self.blinded(sources):
                with self.subTest(target=str(target)):
                    self.assertEqual(wanted & set(windows(target.read_bytes())), set())
        self.assertGreater(seen, 100)

    def test_a_torn_file_is_refused_with_its_place(self) -> None:
        sources = [EXAMPLES / "torn_transcript" / name for name in NAMES]
        done = record("blind", *sources, *(self.folder / name for name in NAMES))
        self.assertEqual((done.status, len(done.err.splitlines())), (1, 1))
        self.assertRegex(done.err, r"transcript\.ttlv has no whole record at offset \d+")
        self.assertEqual(list(self.folder.iterdir()), [])

    def test_short_secrets_never_become_one(self) -> None:
        permutation = replacing.Bytes(bytes(32))
        for length in (0, 1, 2):
            values = [number.to_bytes(length, "big") for number in range(256 ** length)]
            self.assertEqual(len({permutation.of(value) for value in values}), len(values))
        for length in (3, 15, 16, 33):
            self.assertEqual(len(permutation.of(bytes(length))), length)
            self.assertNotEqual(permutation.of(bytes(length)), bytes(length))

    def test_texts_never_become_one_and_keep_their_bytes(self) -> None:
        many = [chr(number) for number in range(128)] + ["ä", "ö", "", "key", "kez", "undone-1", "undone-x"]
        found = replacing.texts(bytes(32), many)
        self.assertEqual(len(set(found.values())), len(many))
        self.assertEqual({text: len(new.encode()) for text, new in found.items()},
                         {text: len(text.encode()) for text in many})
        self.assertEqual(found["undone-1"], "undone-1", "a search gives this identifier by itself")
        self.assertNotEqual(found["undone-x"], "undone-x")

    def test_names_and_identifiers_are_gone_everywhere(self) -> None:
        folder = EXAMPLES / "unique_names"
        sources = [folder / name for name in NAMES]
        texts = set(re.findall(r'(?:Unique Identifier|Name Value): "([^"]+)"',
                               "".join((folder / name).with_suffix(".txt").read_text() for name in NAMES)))
        self.assertGreater(len(texts), 1)
        for target in self.blinded(sources):
            for text in texts:
                spelled = messages.item(0, 7, text.encode())[3:]
                self.assertNotIn(spelled, target.read_bytes())

    def test_a_key_file_gives_the_same_again(self) -> None:
        sources = [EXAMPLES / "created_key_changes" / name for name in NAMES]
        key = self.folder / "key"
        first, second = self.blinded(sources, "--key", key), self.blinded(sources, "--key", key)
        fresh = self.blinded(sources)
        self.assertEqual(first[0].read_bytes(), second[0].read_bytes())
        self.assertNotEqual(first[0].read_bytes(), fresh[0].read_bytes())
        self.assertRegex(key.read_text(), r"\A[0-9a-f]{64}\n\Z")
        self.assertEqual((key.stat().st_mode & 0o777, first[0].stat().st_mode & 0o777), (0o600, 0o600))
        key.write_text("no key\n")
        done = record("blind", sources[0], self.folder / "out", "--key", key)
        self.assertEqual((done.status, (self.folder / "out").exists()), (1, False))
        self.assertIn("is no key for blinding: 64 hexadecimal digits are", done.err)

    def test_a_key_in_a_message_for_people_goes_too(self) -> None:
        shown = shown_key("k", KEY)
        for told in (KEY.hex(), KEY.hex(":").upper(), "key ZWZnaGlqa2xtbm9wcXJz", KEY.decode("latin-1")):
            with self.subTest(told):
                source = self.transcript((messages.get("k"), shown),
                                         (messages.get("k"), messages.not_found(9, text=told)))
                (target,) = self.blinded([source])
                self.assertIn(told.encode(), source.read_bytes())
                self.assertNotIn(told.encode(), target.read_bytes())

    def test_a_key_in_an_identifier_asks_for_the_word(self) -> None:
        for word, sort in (("identifiers", "identifier"), ("names", "client")):
            source = self.transcript((messages.get(KEY.hex()), shown_key(KEY.hex(), KEY)), client=KEY.hex())
            done = record("blind", source, self.folder / "out", "--keep", word)
            self.assertEqual((done.status, (self.folder / "out").exists()), (1, False))
            self.assertRegex(done.err, rf"has bytes of a key in the {sort} at offset \d+: leave --keep {word} away")
        (target,) = self.blinded([source])
        self.assertNotIn(KEY.hex().encode(), target.read_bytes())

    def test_a_message_that_is_none_becomes_zeros(self) -> None:
        source = self.transcript((messages.get("k"), b"no TTLV " + KEY))
        declaration, target = EXAMPLES / "query" / "declaration.ttlv", self.folder / "out.ttlv"
        done = record("blind", source, target)
        self.assertRegex(done.err, r"a message of call 1 is no TTLV .* it becomes zeros, and is still none")
        self.assertNotIn(KEY[:8], target.read_bytes())
        self.assertEqual(verdict("search", target, declaration, self.folder / "w"),
                         verdict("search", source, declaration, self.folder / "w"))

    def test_nothing_is_written_over_and_all_is_made_or_none(self) -> None:
        sources = [EXAMPLES / "query" / name for name in NAMES[:2]]
        there = self.folder / "there"
        there.write_text("mine")
        for targets, status, words in (([self.folder / "a", there], 1, "is there already"),
                                       ([self.folder / "a", self.folder / "a"], 64, "is named for two outputs"),
                                       ([self.folder / "a", self.folder / "no" / "b"], 1, "can't be written")):
            with self.subTest(words):
                done = record("blind", *sources, *targets)
                self.assertEqual((done.status, len(done.err.splitlines())), (status, 1))
                self.assertIn(words, done.err)
                self.assertEqual([path.name for path in self.folder.iterdir()], ["there"])
        self.assertEqual(there.read_text(), "mine")

    def test_wrong_words(self) -> None:
        self.assertEqual(record("blind", "a", "b", "c").status, 64)
        self.assertEqual(record("blind", "a", "b", "--keep", "keys").status, 64)
        self.assertEqual(record("blind", "a", "b", "--names", "--keep", "names").status, 64)
        done = record("blind", FOLDER / "test", self.folder / "out")
        self.assertEqual(done.status, 1)
        self.assertIn("is neither a transcript nor a declaration nor a witness", done.err)


def shown_key(identifier: str, key: bytes) -> bytes:
    """The answer to a Get that shows a key."""
    header = messages.item(0x42007A, 1, messages.version(2, 1) + messages.number(0x420092, 9, 8, 8)
                           + messages.number(0x42000D, 2, 1))
    value = messages.item(0x420045, 1, messages.item(0x420043, 8, key))
    block = messages.item(0x420040, 1, messages.number(0x420042, 5, 1) + value)
    payload = (messages.number(0x420057, 5, 2) + messages.item(0x420094, 7, identifier.encode())
               + messages.item(0x42008F, 1, block))
    answered = (messages.number(0x42005C, 5, 0x0A) + messages.number(0x42007F, 5, 0)
                + messages.item(0x42007C, 1, payload))
    return messages.item(0x42007B, 1, header + messages.item(0x42000F, 1, answered))


if __name__ == "__main__":
    unittest.main()
