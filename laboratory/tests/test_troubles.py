"""What goes wrong before a call, told to people; and wrong words."""

from __future__ import annotations

import os
import socket
import stat
import threading
import unittest
from pathlib import Path

import certificates
from laboratory import InFolder, Laboratory, run, run_apart
from ports import free_port
from test_proxy import at_once


HEADER = bytes.fromhex("540001010000001054000202000000040000000100000000")
BEGIN = ("54001001000000305400110200000004000000010000000054001207000000016100000000000000"
         "5400130800000008" "4200780100000000")
END = "54002001000000205400110200000004000000010000000054001308000000084200" "7B0100000000"
# Words with an output that is named OUT, and each of their inputs; none of what is in these is looked at.
OVER_INPUTS = (
    ("order t --out OUT", "t"), ("order t --out OUT --force", "t"), ("translate t OUT", "t"), ("sift t OUT", "t"),
    ("sift t OUT --list", "t"), ("cut t OUT --segment-calls 1", "t"),
    ("declare --empty --server-key k --out OUT --force", "k"),
    ("declare --server h:1 --server-cert c --server-key k --server-ca a --out OUT", "c k a"),
    ("declare --server h:1 --server-cert c --server-key k --server-ca a --out OUT --force", "c k a"),
    ("keylog p l --server h:1 --out OUT", "p l"),
    ("proxy --listen h:1 --server h:2 --cert c --key k --client-ca a --server-cert t --server-key p --server-ca l "
     "--as x=d,w --out OUT", "c k a t p l d w"),
    ("blind t d OUT new --key k", "t d k"), ("blind t d new OUT", "t d"),
    ("shrink t d OUT", "t d"), ("shrink t d new --declaration OUT", "t d"))
TWO_OUTPUTS = ("blind t d OUT new", "blind t OUT --key new", "shrink t d OUT --declaration new")


class Troubles(Laboratory):
    """Each is one line on standard error that says what to do, and the status 1."""

    def proxy(self, server: int, listen: str = "127.0.0.1:0", certificate: str = "recorder", key: str = "recorder",
              authority: str = "authority.pem", out: str = "transcript.ttlv", more: tuple[object, ...] = ()) -> str:
        """What the recorder says with these words, on which it ends."""
        done = run_apart("proxy", "--listen", listen, "--server", f"127.0.0.1:{server}", "--cert", f"{certificate}.pem",
                   "--key", f"{key}.key", "--client-ca", authority, "--out", self.folder / out, *more,
                   cwd=self.certificates)
        self.assertEqual((done.returncode, done.stdout, done.stderr.count("\n")), (1, "", 1), done.stderr)
        self.assertNotIn("Traceback", done.stderr)
        return done.stderr

    def test_a_port_that_is_taken(self) -> None:
        server = self.stub(at_once)
        said = self.proxy(server.port, listen=f"127.0.0.1:{server.port}")
        self.assertIn(f"the port of 127.0.0.1:{server.port} is taken: end what listens there, or give --listen", said)

    def test_an_address_of_another_machine(self) -> None:
        self.assertIn("nothing can listen at 192.0.2.1:5696", self.proxy(1, listen="192.0.2.1:5696"))

    def test_a_server_that_is_not_there(self) -> None:
        port = free_port()
        self.assertIn(f"no server at 127.0.0.1:{port}: ", self.proxy(port))
        self.assertFalse((self.folder / "transcript.ttlv").exists(), "so that the same words serve again")

    def test_a_server_of_another_authority(self) -> None:
        certificates.make_authority(self.folder, "stranger")
        said = self.proxy(self.stub(at_once).port, more=("--server-ca", self.folder / "stranger.pem"))
        self.assertIn("its certificate is not signed by the authority that was given", said)

    def test_a_server_that_does_not_accept_us(self) -> None:
        certificates.make_authority(self.folder, "stranger")
        certificates.make_certificates(self.folder, ["other"], authority="stranger")
        said = self.proxy(self.stub(at_once, newest=False).port, more=(
            "--server-cert", self.folder / "other.pem", "--server-key", self.folder / "other.key"))
        self.assertIn("it does not accept our certificate", said)

    def test_a_server_without_tls(self) -> None:
        def greet() -> None:
            with plain.accept()[0] as client:
                client.sendall(b"220 hello\r\n")
                client.recv(1)

        with socket.create_server(("127.0.0.1", 0)) as plain:
            threading.Thread(target=greet, daemon=True).start()
            self.assertIn("it does not speak TLS", self.proxy(plain.getsockname()[1]))

    def test_a_key_of_another_certificate(self) -> None:
        self.assertIn("the key in client-1.key is not that of the certificate in recorder.pem",
                      self.proxy(1, key="client-1"))

    def test_a_certificate_that_is_none(self) -> None:
        self.assertIn("uses has no certificate of an authority in PEM", self.proxy(1, authority="uses"))

    def test_a_certificate_that_is_not_there(self) -> None:
        self.assertIn("the certificate nobody.pem or the key recorder.key can't be read: No such file",
                      self.proxy(1, certificate="nobody"))

    def test_a_transcript_that_is_there_already(self) -> None:
        (self.folder / "old").write_bytes(b"calls")
        self.assertIn("is there already, and recorded calls can't be had again", self.proxy(
            self.stub(at_once).port, out="old"))
        self.assertEqual((self.folder / "old").read_bytes(), b"calls")

    def test_a_folder_that_is_not_there(self) -> None:
        self.assertIn("can't be written: No such file or directory; give --out another name", self.proxy(
            self.stub(at_once).port, out="nowhere/transcript.ttlv"))

    def test_a_torn_transcript(self) -> None:
        torn = Path(self.folder / "torn")
        torn.write_bytes(bytes.fromhex("540001010000001054000202000000040000000100000000" "5400100100"))
        done = run("order", torn, "--out", self.folder / "witness.ttlv")
        self.assertEqual(done.returncode, 1)
        self.assertIn(f"`truncate -s 24 {torn}` leaves the marks before", done.stderr)


class Outputs(InFolder):
    """What is there already stays, and what is no transcript is told as that."""

    def test_declare_and_order_write_over_a_file_with_force_alone(self) -> None:
        (self.folder / "old").write_bytes(b"mine")
        (self.folder / "transcript").write_bytes(HEADER)
        for words in (("declare", "--empty"), ("order", "transcript"),
                      ("declare", "--server", "127.0.0.1:1", "--server-cert", "a", "--server-key", "b",
                       "--server-ca", "c")):
            self.assertIn("old is there already, and is left as it is: give --out another name, or --force",
                          self.refused(*words, "--out", "old"))
            self.assertEqual((self.folder / "old").read_bytes(), b"mine")
        for words, length in ((("declare", "--empty"), 40), (("order", "transcript"), 24)):
            self.assertEqual(run(*words, "--out", "old", "--force", cwd=self.folder).returncode, 0)
            self.assertEqual((self.folder / "old").stat().st_size, length)

    def mistaken(self, *words: object) -> str:
        """The one line on standard error at these words, which are refused with status 64 ahead of all work: what is
        there stays as it is, and nothing comes to it."""
        before = self.all_there()
        done = run(*words, cwd=self.folder)
        self.assertEqual((done.returncode, done.stdout, done.stderr.count("\n")), (64, "", 1), (words, done.stderr))
        self.assertEqual(self.all_there(), before, words)
        return done.stderr

    def all_there(self) -> dict[str, bytes]:
        return {path.name: path.read_bytes() if path.is_file() else b"" for path in self.folder.iterdir()}

    def each_name_of(self, name: str) -> list[str]:
        """A file by its name, by its name in another spelling, behind a link, and by a second name."""
        link, hard = self.folder / f"{name}.link", self.folder / f"{name}.hard"
        if not link.exists():
            link.symlink_to(name)
            os.link(self.folder / name, hard)
        return [name, f"./{name}", str(self.folder / name), link.name, hard.name]

    def test_no_word_writes_over_what_it_reads(self) -> None:
        for name in "tdckaplw":
            (self.folder / name).write_bytes(b"mine " + name.encode())
        for words, inputs in OVER_INPUTS:
            for name in inputs.split():
                for out in self.each_name_of(name):
                    with self.subTest(words, out=out):
                        said = self.mistaken(*(out if word == "OUT" else word for word in words.split()))
                        self.assertRegex(said, r"^kmip_record: \S+ is an input too.* give the output another name$")
                        self.assertIn(f"{out} is an input too", said)

    def test_no_file_of_several_is_one_that_is_read(self) -> None:
        for name in ("t-0002.x", "k"):
            (self.folder / name).write_bytes(b"mine")
        for words in ("proxy --listen h:1 --server h:2 --cert t-0002.x --key k --client-ca k",
                      "keylog t-0002.x k --server h:1", "keylog k t-0001.x --server h:1"):
            said = self.mistaken(*words.split(), "--segment-calls", 1, "--out", "t.x")
            self.assertIn(" is an input too", said)

    def test_no_word_writes_two_outputs_into_one(self) -> None:
        for name in "td":
            (self.folder / name).write_bytes(b"mine")
        (self.folder / "same").symlink_to(".")
        for words in TWO_OUTPUTS:
            for out in ("new", "./new", "same/new"):
                said = self.mistaken(*(out if word == "OUT" else word for word in words.split()))
                self.assertIn(" is named for two outputs", said)
                self.assertIn("give one of them another name", said)

    def test_what_is_written_over_keeps_its_mode(self) -> None:
        (self.folder / "transcript").write_bytes(HEADER)
        (self.folder / "link").symlink_to("old")
        old = self.folder / "old"
        for words in (("declare", "--empty"), ("order", "transcript")):
            old.unlink(missing_ok=True)
            self.assertEqual(run(*words, "--out", "old", "--force", cwd=self.folder).returncode, 0)
            self.assertEqual(stat.S_IMODE(old.stat().st_mode), 0o600, "a new one is its owner's alone")
            for mode in (0o644, 0o600, 0o664, 0o200):
                for out in ("old", "link"):
                    old.write_bytes(b"mine")
                    old.chmod(mode)
                    done = run(*words, "--out", out, "--force", cwd=self.folder)
                    self.assertEqual((done.returncode, stat.S_IMODE(old.stat().st_mode)), (0, mode), done.stderr)
                    self.assertNotEqual(old.stat().st_size, len(b"mine"))
                    self.assertTrue((self.folder / "link").is_symlink(), "behind a link its file is replaced")
                    old.chmod(0o600)

    def test_what_is_read_only_or_no_file_is_not_written_over(self) -> None:
        (self.folder / "nothing").mkdir()
        (self.folder / "astray").symlink_to("nowhere")
        for name, mode in (("old", 0o400), ("older", 0o444), ("oldest", 0)):
            (self.folder / name).write_bytes(b"mine")
            (self.folder / name).chmod(mode)
        for words in (("declare", "--empty"), ("order", "no such transcript")):
            for name, told in (("old", "is read-only, and is left as it is"), ("older", "is read-only"),
                               ("oldest", "is read-only"), ("nothing", "is a folder"),
                               ("astray", "is a link that leads nowhere")):
                self.assertIn(f"{name} {told}", self.refused(*words, "--out", name, "--force"))
        for name, mode in (("old", 0o400), ("older", 0o444), ("oldest", 0)):
            self.assertEqual(stat.S_IMODE((self.folder / name).stat().st_mode), mode)
            (self.folder / name).chmod(0o600)
            self.assertEqual((self.folder / name).read_bytes(), b"mine")

    def test_what_is_no_plain_file_is_written_as_it_stands(self) -> None:
        os.mkfifo(self.folder / "pipe")
        reader = os.open(self.folder / "pipe", os.O_RDONLY | os.O_NONBLOCK)
        self.addCleanup(os.close, reader)
        self.assertEqual(run("declare", "--empty", "--out", "pipe", "--force", cwd=self.folder).returncode, 0)
        self.assertEqual(len(os.read(reader, 100)), 40)
        self.assertEqual([path.name for path in self.folder.iterdir()], ["pipe"])

    def test_a_header_that_is_torn_or_none_is_no_transcript(self) -> None:
        lengths = (b"\0\0\0\0", b"\0\0\0\x08", b"\0\0\0\x18", b"\0\0\1\0", b"\0\x0f\xff\xf8")
        others = [HEADER[:4] + length + HEADER[8:] for length in lengths]
        others += [HEADER[:4] + lengths[3], HEADER[:19] + b"\2" + HEADER[20:]]
        torn = [HEADER[:length] for length in range(1, len(HEADER))]
        for data in torn + others + [other + bytes(8) for other in others]:
            (self.folder / "input").write_bytes(data)
            for words in (("order", "input", "--out", "new"), ("list", "input"), ("translate", "input", "new")):
                with self.subTest(data.hex(), words=words):
                    said = self.refused(*words)
                    self.assertIn("input is no transcript: ", said)
                    self.assertNotIn("truncate", said)

    def test_what_is_no_transcript(self) -> None:
        begin, end = bytes.fromhex(BEGIN), bytes.fromhex(END)
        for data, words in {
                b"": "is no transcript: it is empty",
                b"calls of a server": "is no transcript: at offset 0 there is no header of one",
                bytes.fromhex("540030010000002054000202000000040000000100000000"): "is no transcript: at offset 0",
                HEADER + b"\x42\0\x0d\x0c" + bytes(4): "has no record at offset 24: an item of the unknown type 0C",
                HEADER + HEADER: "has a record that is no mark at offset 24",
                HEADER + begin + begin: "has at offset 80 a second begin mark of call 1",
                HEADER + end: "has at offset 24 a second begin mark of call 1, or an end mark of a call"}.items():
            (self.folder / "input").write_bytes(data)
            said = self.refused("order", "input", "--out", "witness")
            self.assertIn(words, said)
            self.assertNotIn("truncate", said)
        self.assertIn("nothing can't be read: No such file", self.refused("order", "nothing", "--out", "witness"))


class Words(Laboratory):
    """Words that the program does not know."""

    def test_wrong_words(self) -> None:
        for words in (["prox"], ["proxy"], ["proxy", "--listen", "nowhere"], ["declare", "--out", "x"],
                      ["declare", "--empty", "--reason", "1", "--out", "x"],
                      ["keylog", "a", "b", "--server", "h:99999", "--out", "x"]):
            done = run(*words, cwd=self.folder)
            self.assertEqual((done.returncode, done.stdout), (64, ""), words)
            self.assertIn("usage: kmip_record", done.stderr)
        self.assertEqual(list(self.folder.iterdir()), [])

    def test_help(self) -> None:
        for words in ([], ["--help"], ["proxy", "--help"]):
            done = run_apart(*words)
            self.assertEqual((done.returncode, done.stderr), (0, ""))
            self.assertTrue(done.stdout.startswith("usage: kmip_record"))


if __name__ == "__main__":
    unittest.main()
