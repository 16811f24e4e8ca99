"""Clients that the server sees with certificates of their own."""

from __future__ import annotations

import unittest
from pathlib import Path

import messages
import stub
from laboratory import Laboratory, run, wait_until

STAMP = 1_700_000_000


class Identities(Laboratory):
    """The proxy's word `--as`."""

    def shown(self, words: list[object], clients: list[str]) -> list[str]:
        """The names that the server sees where these clients make a call each."""
        seen: list[str] = []

        def answering(peer: stub.ssl.SSLSocket, _: bytes) -> None:
            subject = dict(pair for part in peer.getpeercert()["subject"] for pair in part)
            seen.append(subject["commonName"])
            peer.sendall(messages.not_found(STAMP))

        self.recorder = self.start(self.stub(answering).port, *map(str, words))
        for name in clients:
            client = self.client(self.recorder.port, name)
            client.sendall(messages.get("key-1"))
            self.assertEqual(stub.receive(client), messages.not_found(STAMP))
        wait_until(lambda: len(seen) == len(clients), "the calls at the server")
        return seen

    def pair(self, name: str) -> str:
        return f"{self.certificates / name}.pem,{self.certificates / name}.key"

    def test_each_client_is_shown_as_itself_and_the_others_as_the_recorder(self) -> None:
        words = ["--as", f"client-1={self.pair('client-1')}", "--as", f"client-2={self.pair('client-5')}"]
        self.assertEqual(self.shown(words, ["client-1", "client-2", "client-3"]), ["client-1", "client-5", "recorder"])
        told = "client-3 has no certificate by --as: the server sees the recorder's"
        wait_until(lambda: self.recorder.heard(told), "a word on the third")

    def test_clients_of_one_name_differ_in_the_marks(self) -> None:
        self.shown(["--as", f"client-1={self.pair('client-1')}"], ["client-1", "client-1"])
        names = [mark.client for mark in self.recorder.marks()[::2]]
        self.assertEqual([name.split(":")[0] for name in names], ["client-1 127.0.0.1"] * 2)
        self.assertNotEqual(*names)

    def test_a_folder_of_certificates(self) -> None:
        folder = self.folder / "clients"
        folder.mkdir()
        for name in ("client-1", "client-2"):
            for ending in ("pem", "key"):
                (folder / f"of-{name}.{ending}").write_bytes((self.certificates / f"{name}.{ending}").read_bytes())
            (folder / f"of-{name}.key").chmod(0o600)
        (folder / "authority.pem").write_bytes((self.certificates / "authority.pem").read_bytes())
        self.assertEqual(self.shown(["--as", folder], ["client-2", "client-1"]), ["client-2", "client-1"])

    def test_wrong_words(self) -> None:
        empty = self.folder / "empty"
        empty.mkdir()
        for words, said in {
                ("alice",): "--as alice: no NAME=CERT,KEY",
                (str(empty),): "the folder has no NAME.pem with a NAME.key beside it",
                (f"a={self.pair('client-1')}", f"a={self.pair('client-2')}"): "a has two certificates",
                ("a=nobody.pem,nobody.key",): "the certificate nobody.pem or the key nobody.key can't be read"}.items():
            done = self.proxy(*words)
            self.assertEqual((done.returncode, done.stdout, done.stderr.count("\n")), (1, "", 1), done.stderr)
            self.assertIn(said, done.stderr)
        self.assertFalse(Path(self.folder / "transcript.ttlv").exists())

    def test_a_key_that_everybody_may_read_is_refused(self) -> None:
        key = self.folder / "alice.key"
        key.write_bytes((self.certificates / "client-1.key").read_bytes())
        for mode, told in ((0o644, "alice.key is a key that everybody on this machine may read: `chmod 600 "),
                           (0o604, "is a key that everybody"), (0o640, "no server at 127.0.0.1:1: ")):
            key.chmod(mode)
            done = self.proxy(f"alice={self.certificates / 'client-1.pem'},{key}")
            self.assertEqual((done.returncode, done.stderr.count("\n")), (1, 1), done.stderr)
            self.assertIn(told, done.stderr)

    def proxy(self, *identities: str) -> object:
        words = ["--cert", "recorder.pem", "--key", "recorder.key", "--client-ca", "authority.pem", "--out",
                 self.folder / "transcript.ttlv"]
        return run("proxy", "--listen", "127.0.0.1:0", "--server", "127.0.0.1:1", *words,
                   *[word for identity in identities for word in ("--as", identity)], cwd=self.certificates)


if __name__ == "__main__":
    unittest.main()
