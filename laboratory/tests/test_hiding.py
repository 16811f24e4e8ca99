"""What is hidden: of all that may be a key or a password `blind` leaves nothing, and lists and pages show nothing."""

from __future__ import annotations

import base64
import hashlib
import time
import unittest
import uuid
from pathlib import Path
from typing import Iterable

import messages
import sessions
from laboratory import InFolder, read_marks
from messages import asking, item, number, request, response, structure, text
from test_blind import KEEP_ALL, record, shown_key
from test_report import Page, report

from kmip_laboratory.blinding import replacing
from kmip_laboratory.blinding.leaks import Leaks

STAMP = 1_700_000_000
# How often a time is measured that is too long, since what else the machine does may have taken its caches.
TRIES = 5
KEY = bytes.fromhex("9f3c00e1275bd8640a7d25b2c6f81e43")
HEX = [f"{byte:02x}" for byte in KEY]
QUOTED = "".join(chr(byte) if 48 <= byte < 123 and byte != 92 else f"%{byte:02X}" for byte in KEY)


def groups(size: int, turned: bool = False) -> str:
    """The key's digits in groups of so many bytes."""
    parts = [KEY[place:place + size] for place in range(0, len(KEY), size)]
    return " ".join((part[::-1] if turned else part).hex() for part in parts)


SPELLINGS: dict[str, str] = {
    "hex": KEY.hex(), "HEX": KEY.hex().upper(), "0x before all": "0x" + KEY.hex(),
    "0x before each": ", ".join(f"0x{byte}" for byte in HEX), "C": "{" + ",".join(f"0X{byte}" for byte in HEX) + "}",
    "colons": ":".join(HEX), "hyphens": "-".join(HEX).upper(), "blanks": " ".join(HEX), "dots": ".".join(HEX),
    "commas": ",".join(HEX), "underscores": "_".join(HEX), "lines": "\n".join(HEX), "h behind": "h ".join(HEX) + "h",
    "\\x": "".join(f"\\x{byte}" for byte in HEX), "Python": repr(KEY), "%XX": "".join(f"%{byte}" for byte in HEX),
    "%XX of some": QUOTED, "\\u": "".join(f"\\u00{byte}" for byte in HEX),
    "octal": "".join(f"\\{byte:03o}" for byte in KEY),
    "decimal list": ", ".join(map(str, KEY)), "decimal in brackets": str(list(KEY)),
    "decimal with signs": str([byte - 256 if byte > 127 else byte for byte in KEY]),
    "decimal of three digits": "".join(f"{byte:03d}" for byte in KEY), "decimal": str(int.from_bytes(KEY, "big")),
    "HTML": "".join(f"&#{byte};" for byte in KEY), "bits": "".join(f"{byte:08b}" for byte in KEY),
    "base32": base64.b32encode(KEY).decode(), "base32 in small": base64.b32encode(KEY).decode().lower().rstrip("="),
    "base64": base64.b64encode(KEY).decode(), "base64 for URLs": base64.urlsafe_b64encode(KEY).decode().rstrip("="),
    "base64 in lines": "\r\n".join([base64.b64encode(KEY).decode()[place:place + 5] for place in range(0, 24, 5)]),
    "base64 behind words": f"the key is {base64.b64encode(KEY).decode()}, keep it",
    "GUID": str(uuid.UUID(bytes=KEY)), "GUID of Windows": "{" + str(uuid.UUID(bytes_le=KEY)).upper() + "}",
    "groups of 2 bytes": groups(2), "groups of 4 bytes": groups(4), "groups of 2, turned": groups(2, True),
    "groups of 4, turned": groups(4, True), "latin-1": KEY.decode("latin-1"), "reversed": KEY[::-1].hex(),
    "reversed digits": KEY.hex()[::-1], "reversed latin-1": KEY[::-1].decode("latin-1"),
    "reversed base64": base64.b64encode(KEY[::-1]).decode()}
PASSWORD = "correct horse battery staple"


def secrets() -> list[bytes]:
    """Fields in which a secret stands: of a key, of who asks, of other operations, of vendors and of nobody."""
    def told(*tags: int) -> list[bytes]:
        return [text(tag, PASSWORD) for tag in tags]

    def data(*tags: int) -> list[bytes]:
        return [item(tag, 8, PASSWORD.encode()) for tag in tags]

    key = structure(0x420040, number(0x420042, 5, 2), structure(0x420045, *told(0x420043)))
    credential = structure(0x420025, *told(0x420099, 0x4200A1, 0x4200B0, 0x420055, 0x42000A, 0x54ABCD))
    return [
        structure(0x420085, number(0x420086, 5, 1), key), *told(0x420045, 0x420040), structure(
            0x42000C, structure(0x420023, number(0x420024, 5, 1), credential)), *told(0x420156, 0x420157, 0x420099),
        structure(0x420149, number(0x42014A, 5, 1), *data(0x42014B)), structure(0x4200C8, *data(0x4200C9, 0x4200CA)),
        *data(0x42003A, 0x42003D, 0x420030, 0x420084, 0x42005A, 0x4200C2, 0x4200C6, 0x420035, 0x42001E, 0x54ABCD),
        *told(0x42007D, 0x420080, 0x4200FD, 0x420141, 0x42000B, 0x42000A, 0x420088, 0x54ABCD),
        structure(0x54ABCD, *told(0x54ABCE)), item(0x420052, 4, PASSWORD.encode()[:24]), structure(
            0x420095, *[item(0x420096, 3, PASSWORD.encode()[place:place + 8]) for place in (0, 8, 16)])]


class Hidden(InFolder):
    """A transcript with secrets in all kinds of fields."""

    def setUp(self) -> None:
        super().setUp()
        self.source = self.folder / "transcript.ttlv"
        (self.folder / "declaration.ttlv").write_bytes(sessions.declaration())

    def write(self, *calls: tuple[bytes, bytes], client: str = "a") -> None:
        """The transcript of these requests and answers."""
        self.source.write_bytes(messages.transcript(*(
            mark for place, (asked, answered) in enumerate(calls, 1)
            for mark in (messages.begin(place, asked, client), messages.end(place, answered)))))

    def blinded(self, *words: str) -> bytes:
        """The bytes of it, blinded."""
        out = self.folder / "out"
        out.unlink(missing_ok=True)
        done = record("blind", self.source, out, *words)
        self.assertEqual(done.status, 0, done.err)
        return out.read_bytes()

    def with_secrets(self) -> None:
        """The transcript in which a call for each field has the secret."""
        self.write(*((request(asking(0x1F, each)), response(STAMP, messages.answering(0x1F, 0, each)))
                     for each in secrets()))

    def windows_left(self, data: bytes) -> list[bytes]:
        """The windows of the secret that are in these bytes."""
        spelled = PASSWORD.encode()
        return [spelled[place:place + 8] for place in range(len(spelled) - 7) if spelled[place:place + 8] in data]

    def test_what_is_not_known_to_be_harmless_is_replaced(self) -> None:
        self.with_secrets()
        self.assertEqual(len(self.windows_left(self.source.read_bytes())), len(PASSWORD) - 7)
        for words in ([], ["--keep", "identifiers"], KEEP_ALL):
            self.assertEqual(self.windows_left(self.blinded(*words)), [], words)

    def test_list_and_page_hide_the_same(self) -> None:
        self.with_secrets()
        for number_of_call in range(1, len(secrets()) + 1):
            shown = record("list", self.source, "--call", number_of_call).out
            self.assertEqual(self.seen(shown), [], number_of_call)
            self.assertNotEqual(self.seen(record("list", self.source, "--call", number_of_call, "--keys").out), [])
        for words, is_seen in (([], False), (["--keys"], True)):
            done = report(self.folder / "page.html", self.folder, "--text", "--force", *words)
            self.assertEqual(done.returncode, 4, done.stderr)
            page = Page((self.folder / "page.html").read_text(encoding="utf-8"))
            lines = "\n".join(page.data["lines"])
            self.assertEqual(bool(self.seen(lines)), is_seen)
            self.assertEqual(self.seen("".join(page.texts[:-1]) + done.stdout) if not is_seen else [], [])

    def seen(self, shown: str) -> list[str]:
        """The spellings of the secret in which a part of it is shown."""
        numbers = [str(int.from_bytes(PASSWORD.encode()[place:place + 8], "big")) for place in (0, 8, 16)]
        wanted = [PASSWORD, PASSWORD.encode()[:24].hex(), PASSWORD.encode()[:24].hex().upper(), *numbers]
        return [each for each in wanted if each in shown]

    def test_names_and_identifiers_are_seen(self) -> None:
        name = structure(0x420053, text(0x420055, "disk key"), number(0x420054, 5, 1))
        self.write((request(asking(8, structure(0x420125, name)), protocol=(2, 1)), response(
            STAMP, messages.answering(8, 0, text(0x420094, "key-1")))),
            (request(asking(0x0B, text(0x42000A, "State"), text(0x42000A, "x-mine")), protocol=(1, 2)),
             response(STAMP, messages.answering(0x0B, 0), protocol=(1, 2))))
        shown = record("list", self.source, "--call", 1).out + record("list", self.source, "--call", 2).out
        for line in ('Name Value: "disk key"', 'Unique Identifier: "key-1"', 'Attribute Name: "State"',
                     "Attribute Name: hidden"):
            self.assertIn(line, shown)

    def test_no_spelling_of_a_known_key_is_left(self) -> None:
        self.assertGreater(len(SPELLINGS), 30)
        calls = [(messages.get("k"), shown_key("k", KEY))]
        calls += [(messages.get("k"), messages.not_found(STAMP, text=told)) for told in SPELLINGS.values()]
        self.write(*calls)
        before = self.source.read_bytes()
        for words in ([], ["--keep", "texts"]):
            left = self.blinded(*words)
            for name, told in SPELLINGS.items():
                with self.subTest(name, words=words):
                    self.assertIn(told.encode(), before)
                    self.assertNotIn(told.encode(), left)
        self.write(*calls[:1], (messages.get("k"), messages.not_found(STAMP, text="no such object, says the server")))
        self.assertIn(b"no such object, says the server", self.blinded("--keep", "texts"))

    def test_clients_names_and_texts_go_unless_they_are_kept(self) -> None:
        self.write((messages.get("an identifier"), messages.not_found(STAMP, text="a text for people")),
                   client="client seven")
        told = {"names": b"client seven", "identifiers": b"an identifier", "texts": b"a text for people"}
        left = self.blinded()
        self.assertEqual([name for name, spelled in told.items() if spelled in left], [])
        client = read_marks(str(self.folder / "out"))[0].client
        self.assertEqual([len(part) for part in client.split(" ")], [6, 5], "who it is stays apart from the connection")
        for kept in told:
            left = self.blinded("--keep", kept)
            self.assertEqual([name for name, spelled in told.items() if spelled in left], [kept])

    def test_a_long_text_is_not_kept(self) -> None:
        words = [("no such object " * count)[:-1] for count in (68, 69, 60_000)]
        self.write((messages.get("k"), shown_key("k", KEY)), *(
            (messages.get("k"), messages.not_found(STAMP, text=each)) for each in words))
        left = self.blinded("--keep", "texts")
        self.assertEqual([each.encode() in left for each in words], [True, False, False])

    def test_an_identifier_that_a_search_gives_holds_no_key(self) -> None:
        told = "undone-" + str(int.from_bytes(KEY, "big"))
        self.write(*((messages.get(each), messages.not_found(STAMP)) for each in (told, "undone-7")))
        left = self.blinded()
        self.assertNotIn(told.encode(), left)
        self.assertIn(b"undone-7", left)


def permuted(key: bytes, data: bytes) -> bytes:
    """A Feistel network of ten rounds over halves of bits, whose rounds are drawn by SHAKE-256, in the plainest way."""
    length, half = len(data), 4 * len(data)
    left, right = divmod(int.from_bytes(data, "big"), 2 ** half)
    for number_of_round in range(10):
        told = key + b"bytes" + bytes([number_of_round]) + length.to_bytes(4, "big")
        drawn = hashlib.shake_256(told + right.to_bytes((length + 1) // 2, "big")).digest((length + 1) // 2)
        left, right = right, left ^ int.from_bytes(drawn, "big") % 2 ** half
    return (left * 2 ** half + right).to_bytes(length, "big")


class Pieces(unittest.TestCase):
    """What hiding is made of."""

    def test_a_million_bytes_take_less_than_a_second(self) -> None:
        permutation, data = replacing.Bytes(bytes(32)), bytes(range(256)) * 4096
        least = float("inf")
        for _ in range(TRIES):
            begun = time.thread_time()
            made = permutation.of(data)
            least = min(least, time.thread_time() - begun)
            if least < 1:
                break
        self.assertLess(least, 1)
        self.assertEqual((len(made), made == data), (len(data), False))

    def test_the_permutation_is_a_network_of_ten_rounds(self) -> None:
        """Files that were blinded with a key have the same bytes for the same keys for ever."""
        key = bytes(range(32))
        for length in (0, 1, 2, 3, 16, 33, 4096):
            data = bytes(number % 251 for number in range(length))
            self.assertEqual(replacing.Bytes(key).of(data), permuted(key, data))

    def test_what_shows_no_key(self) -> None:
        leaks = Leaks([KEY])
        for words in self.harmless():
            self.assertFalse(leaks.shows(words), words)

    def harmless(self) -> Iterable[str]:
        """Texts with as many digits, and beginnings of the key that are too short."""
        yield from ("The quick brown fox jumps over the lazy dog 0123456789", "00" * 16, KEY[:7].hex())
        yield str(uuid.UUID(int=7))
        yield Path(__file__).read_text(encoding="utf-8").replace(KEY.hex(), "")


if __name__ == "__main__":
    unittest.main()
