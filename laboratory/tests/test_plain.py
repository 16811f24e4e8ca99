"""Texts from outside stay on their line, wherever the laboratory prints them: nobody forges a line of its own."""

from __future__ import annotations

import contextlib
import io
import json
import re
import subprocess
import unittest
from pathlib import Path
from typing import Callable

import messages
import sessions
import stub
from laboratory import InFolder, Laboratory, run, wait_until
from test_report import Page, report

from kmip_laboratory.plain import plain
from kmip_laboratory.trouble import ConnectionTrouble, Trouble, say

STAMP = 1_700_000_000
# A line of the recorder's own, and orders to the terminal: ESC, C1 controls, other directions, other ends of lines.
FORGED = "kmip_record: call 1 stays open"
EVIL = f"eve\n{FORGED}\r\x1b[2K\x9b31m\x85\u2028\u202e\u2066\u200f\x7f"
RAW = re.compile("[\x00-\x09\x0b-\x1f\x7f-\x9f\u200e\u200f\u2028-\u202e\u2066-\u2069\ufeff]")


def harmless(printed: str) -> bool:
    """Whether nothing in it is an order, and no line of it is the forged one."""
    return RAW.search(printed) is None and not any(line.startswith(FORGED) for line in printed.split("\n"))


class Plain(unittest.TestCase):
    """The one function."""

    def test_what_orders_anything_stands_as_its_number(self) -> None:
        self.assertTrue(harmless(plain(EVIL)))
        self.assertEqual(plain("ä\x1b\n\x9b\u202e"), "ä\\u{1b}\\u{a}\\u{9b}\\u{202e}")
        self.assertEqual(plain(plain(EVIL)), plain(EVIL))
        self.assertEqual(plain("a key, ключ, 鍵"), "a key, ключ, 鍵")

    def test_what_goes_wrong_is_told_on_one_line(self) -> None:
        said = io.StringIO()
        with contextlib.redirect_stderr(said):
            say(EVIL)
        self.assertEqual((said.getvalue().count("\n"), harmless(said.getvalue())), (1, True))
        for trouble in (Trouble(EVIL), ConnectionTrouble(EVIL)):
            self.assertTrue(harmless(str(trouble)))


class Words(InFolder):
    """The words that read a transcript whose client's, identifiers' and messages' texts are forged."""

    def setUp(self) -> None:
        super().setUp()
        rekey = messages.request(messages.asking(4, messages.text(0x420094, EVIL)))
        (self.folder / "transcript.ttlv").write_bytes(messages.transcript(
            messages.begin(1, messages.get(EVIL), EVIL), messages.end(1, messages.not_found(STAMP, text=EVIL)),
            messages.begin(2, rekey, EVIL), messages.end(2, messages.response(STAMP, messages.answering(4, 0)))))
        (self.folder / "declaration.ttlv").write_bytes(sessions.declaration())
        (self.folder / "witness.ttlv").write_bytes(messages.witness(1, 2))

    def test_the_recorders_words(self) -> None:
        for words in (["sift", "transcript.ttlv", "--list"], ["sift", "transcript.ttlv", "left"],
                      ["list", "transcript.ttlv"], ["list", "transcript.ttlv", "--call", "1", "--keys"],
                      ["list", "transcript.ttlv" + EVIL]):
            with self.subTest(words=words):
                done = run(*words, cwd=self.folder)
                self.assertIn("eve\\u{a}", done.stdout + done.stderr)
                self.assertTrue(harmless(done.stdout) and harmless(done.stderr), done.stdout + done.stderr)

    def test_the_page_the_text_and_junit(self) -> None:
        page, junit = self.folder / "page.html", self.folder / "junit.xml"
        done = report(page, self.folder, "--text", "--junit", junit)
        self.assertEqual(done.returncode, 4, done.stderr)
        seen = Page(page.read_text(encoding="utf-8"))
        told = ["".join(seen.texts), *map(str, seen.data["lines"]), *seen.data["recordings"][0]["clients"],
                junit.read_text(encoding="utf-8"), done.stdout]
        for text in told:
            self.assertTrue(harmless(text), text)
        self.assertEqual(seen.data["recordings"][0]["clients"], [plain(EVIL)])


class Recorder(Laboratory):
    """The words that speak to clients and servers."""

    def setUp(self) -> None:
        super().setUp()
        self.name = "evil-client"
        self.certificate(EVIL.replace("\x85", "").replace("\u2028", ""))

    def certificate(self, name: str) -> None:
        """A certificate of the client's with this common name, signed by the authority."""
        (self.certificates / "names").write_text(
            "[req]\ndistinguished_name=of\nprompt=no\nutf8=yes\n[of]\nCN=" + name.replace("\\", "\\\\").replace(
                "\n", "\\n").replace("\r", "\\r") + "\n", encoding="utf-8")
        key = f"{self.name}.key"
        for words in (["req", "-new", "-newkey", "ec", "-pkeyopt", "ec_paramgen_curve:prime256v1", "-nodes", "-config",
                       "names", "-keyout", key, "-out", "evil.csr"],
                      ["x509", "-req", "-in", "evil.csr", "-CA", "authority.pem", "-CAkey", "authority.key",
                       "-CAcreateserial", "-days", "2", "-out", f"{self.name}.pem"]):
            subprocess.run(["openssl", *words], cwd=self.certificates, check=True, capture_output=True)

    def test_a_certificates_name_forges_no_line_of_the_recorder(self) -> None:
        server = self.stub(lambda peer, _: peer.sendall(b"no message of KMIP"))
        recorder = self.start(server.port, "--as", f"bob={self.certificates / 'client-1.pem'},"
                              f"{self.certificates / 'client-1.key'}")
        client = self.client(recorder.port, self.name)
        client.sendall(messages.get("k", (1, 4)))
        wait_until(lambda: recorder.heard("; call 1 stays open"), "a word on the connection")
        recorder.end()
        self.assertFalse([line for line in recorder.said if line.startswith(FORGED)])
        self.assertTrue(harmless("\n".join(recorder.said)), recorder.said)
        self.assertGreater(sum("eve\\u{a}" in line for line in recorder.said), 2)

    def test_a_servers_texts_forge_no_line_of_declare(self) -> None:
        def refused(peer: stub.ssl.SSLSocket, request: bytes) -> None:
            asked = b"\x42\x00\x5c\x05\x00\x00\x00\x04\x00\x00\x00\x08" in request
            peer.sendall(messages.response(STAMP, messages.answering(8, 0, messages.text(0x420094, EVIL))) if asked
                         else messages.not_found(STAMP, text=EVIL))

        done = self.declared(refused)
        self.assertIn("eve\\u{a}", done.stderr)
        self.assertTrue(harmless(done.stderr), done.stderr)

    def declared(self, answering: Callable[[stub.ssl.SSLSocket, bytes], None]) -> subprocess.CompletedProcess[str]:
        """What `declare` does at a server that answers so."""
        pair = ["--server-cert", "recorder.pem", "--server-key", "recorder.key", "--server-ca", "authority.pem"]
        return run("declare", "--server", f"127.0.0.1:{self.stub(answering).port}", *pair, "--out",
                   Path(self.folder) / "declaration.ttlv", cwd=self.certificates)


class Json(unittest.TestCase):
    """What a page has as JSON."""

    def test_json_is_ascii(self) -> None:
        from kmip_laboratory.reporting.markup import data
        spelled = data({"lines": [EVIL]}, "data")
        self.assertTrue(spelled.isascii() and harmless(spelled))
        self.assertEqual(json.loads(spelled.partition(">")[2].rpartition("<")[0]), {"lines": [EVIL]})


if __name__ == "__main__":
    unittest.main()
