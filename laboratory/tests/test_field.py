"""Every word of kmip_record on a recording of PyKMIP in 1.2: from two clients with calls that are not judged to the few
that convict the server, without its keys."""

from __future__ import annotations

import subprocess
import unittest

import certificates
import messages
from key_server import HERE, WithPyKmip
from laboratory import AUDITOR, PYKMIP_PYTHON, SECONDS, Begin, read_marks, run, wait_until

from kmip_laboratory.transcript import spelled

MATERIAL = bytes(range(160, 192))
CALLS_OF_A_CLIENT = 10
OTHERS = 3


class OfTheField(WithPyKmip):
    """A key server whose active keys have no Activation Date."""

    def field(self, port: int, name: str) -> None:
        """A client does its work, in 1.2."""
        done = subprocess.run([PYKMIP_PYTHON, "-W", "ignore", HERE / "pykmip_field.py", self.certificates, str(port),
                               name, "1.2"], capture_output=True, text=True, timeout=SECONDS * 4)
        self.assertEqual(done.returncode, 0, done.stderr)

    def done(self, *words: object) -> str:
        """What a word prints on standard output, and then on standard error; it ends well."""
        done = run(*words, cwd=self.folder)
        self.assertEqual(done.returncode, 0, done.stderr)
        return done.stdout + done.stderr

    def search(self, transcript: str, declaration: str = "declaration.ttlv") -> str:
        """What a search for a witness says."""
        return subprocess.run([AUDITOR, "search", transcript, declaration, "found.ttlv", "--quiet"], cwd=self.folder,
                              capture_output=True, text=True, timeout=SECONDS * 3).stdout

    def recorded(self) -> None:
        """said.ttlv, of two clients that are shown to the server as themselves, in files of a few calls each."""
        self.done("declare", "--empty", "--out", "declaration.ttlv")
        clients = [word for number in (1, 2) for word in ("--as", f"client-{number}=client-{number}.pem,"
                                                          f"client-{number}.key")]
        recorder = self.start(self.server_port, "--segment-calls", "7", *clients)
        for number in (1, 2):
            self.field(recorder.port, f"client-{number}")
        self.assertTrue(recorder.end().startswith(f"{2 * CALLS_OF_A_CLIENT} calls, 0 open calls, "))
        self.assertTrue(recorder.heard("speaks version 1.2, which the auditor does not judge"))
        self.assertTrue(recorder.heard("by version: 1.2 20; by operation: Register 2, "), recorder.said)
        self.assertTrue(recorder.heard("the auditor will stop at call 1, for version 1.2: 20 calls are so"))
        files = sorted(self.folder.glob("transcript-0*.ttlv"))
        self.assertEqual(len(files), 3)
        (self.folder / "said.ttlv").write_bytes(messages.transcript(*(
            spelled(mark) for path in files for mark in read_marks(str(path)))))
        self.assertEqual(run("verify", *files).returncode, 0)

    def test_from_a_client_of_1_2_to_the_calls_that_convict(self) -> None:
        self.recorded()
        self.assertEqual(self.search("said.ttlv"), "outside: call 1 request item 0 kind 2 Version\n")
        self.assertIn("40 messages translated, 0 left as they are\n", self.done("translate", "said.ttlv", "t.ttlv"))
        self.assertRegex(self.search("t.ttlv"), r"outside: call 4 response item 1 kind 4 Operation\n")
        self.listed()
        self.sifted()
        self.cut()
        self.blinded(self.shrunk())

    def listed(self) -> None:
        """What is in it, with the key and without."""
        lines = self.done("list", "t.ttlv").splitlines()
        self.assertEqual(len(lines), 2 * CALLS_OF_A_CLIENT)
        self.assertRegex(lines[0], r"^call 1  client-1 127\.0\.0\.1:\d+  marks 1-2  \S+Z  Register 1: Success$")
        self.assertNotIn(MATERIAL.hex(), self.done("list", "t.ttlv", "--call", 1))
        self.assertIn(MATERIAL.hex(), self.done("list", "t.ttlv", "--call", 1, "--keys"))
        clients = {line.split("  ")[1] for line in lines}
        self.assertEqual(len(clients), 2, "by name and connection")

    def sifted(self) -> None:
        """What has no effect is left out, and what PyKMIP does not keep forgotten: then all is well."""
        table = self.done("sift", "t.ttlv", "--list")
        for operation in ("Query", "Encrypt", "Get Attribute List"):
            self.assertRegex(table, rf"1  harmless  {operation}  2\.1  client-1 ")
        kept = f"{2 * (CALLS_OF_A_CLIENT - OTHERS)} calls kept, {2 * OTHERS} left out\n"
        self.assertIn(kept, self.done("sift", "t.ttlv", "s.ttlv"))
        self.assertRegex(self.search("s.ttlv"), r"gave up: \d+ steps\n")
        forgetting = [word for name in ("Activation Date", "Initial Date", "Deactivation Date")
                      for word in ("--forget", name)]
        self.assertIn(kept, self.done("sift", "t.ttlv", "f.ttlv", *forgetting))
        self.assertRegex(self.search("f.ttlv"), r"yes: \d+ steps\n")
        self.done("order", "f.ttlv", "--out", "guess.ttlv")
        checked = subprocess.run([AUDITOR, "check", "f.ttlv", "declaration.ttlv", "guess.ttlv"], cwd=self.folder,
                                 capture_output=True, text=True, timeout=SECONDS * 3)
        self.assertEqual(checked.stdout, "yes\n")

    def cut(self) -> None:
        """Its files say together what it says."""
        self.assertIn("3 files, 14 calls\n", self.done("cut", "s.ttlv", "pieces", "--segment-calls", 5))
        pieces = sorted((self.folder / "pieces").iterdir())
        joined = messages.transcript(*(path.read_bytes()[24:] for path in pieces))
        self.assertEqual(joined, (self.folder / "s.ttlv").read_bytes())

    def shrunk(self) -> str:
        """The search's word on the few calls that are left."""
        said = self.done("shrink", "s.ttlv", "declaration.ttlv", "small.ttlv", "--declaration", "less.ttlv")
        self.assertRegex(said, r"^[34] of 14 calls are left: ")
        verdict = self.search("small.ttlv", "less.ttlv")
        self.assertRegex(verdict, r"gave up: \d+ steps\n")
        return verdict

    def blinded(self, verdict: str) -> None:
        """Without its keys it is judged the same."""
        self.done("blind", "small.ttlv", "less.ttlv", "b.ttlv", "l.ttlv", "--names", "--identifiers")
        self.assertEqual(self.search("b.ttlv", "l.ttlv"), verdict)
        data = (self.folder / "b.ttlv").read_bytes()
        self.assertFalse(any(MATERIAL[place:place + 8] in data for place in range(25)))
        self.assertNotIn(b"key of client", data)

    def test_three_clients_with_certificates_wrapped_keys_and_attribute_operations(self) -> None:
        """They are at work at once, nobody says what the server held, and much of it no rule judges: the server is
        convicted all the same, in one word."""
        names = ("portal", "vault", "backup")
        certificates.make_certificates(self.certificates, names)
        clients = [word for name in names for word in ("--as", f"{name}={name}.pem,{name}.key")]
        recorder = self.start(self.server_port, "--minor", "1", *clients)
        done = subprocess.run([PYKMIP_PYTHON, "-W", "ignore", HERE / "pykmip_three.py", self.certificates,
                               str(recorder.port)], capture_output=True, text=True, timeout=SECONDS * 4)
        self.assertEqual(done.returncode, 0, done.stderr)
        recorder.end()
        audited = run("audit", "transcript.ttlv", "--out", "audited", cwd=self.folder)
        self.assertEqual((audited.returncode, audited.stderr), (1, ""), audited.stdout)
        # Where its clock goes on to the next second meanwhile, the Initial Date is wrong too, which is told first.
        self.assertRegex(audited.stdout, r"finding 1: turn \d+ call \d+ item 1 why (12 AttributeMissing|11 AttributeDiffers)\n")
        self.assertRegex(audited.stdout, r"  (Activation Date: not shown, \S+ held|Initial Date: \S+ shown, \S+ held)\n")
        for told in (r"passed: Set Attribute 3 items", r'aside: "\d+" since call \d+ item 1 Modify Attribute',
                     r"already these \d+ calls can't be explained: "):
            self.assertRegex(audited.stdout, told)
        self.assertIn("Objects that are set aside", (self.folder / "audited/report.html").read_text("utf-8"))

    def test_a_client_that_breaks_off_leaves_a_call_with_its_answer(self) -> None:
        recorder = self.start(self.server_port, "--minor", "1")
        client = self.client(recorder.port)
        client.sendall(messages.get("1", (1, 2)))
        wait_until(recorder.marks, "the request's mark")
        client.close()
        wait_until(lambda: len(recorder.marks()) == 2, "the answer's mark")
        self.assertTrue(recorder.end().startswith("1 calls, 0 open calls, "))
        begun, _ = recorder.marks()
        self.assertIsInstance(begun, Begin)
        self.assertEqual(begun.message, messages.get("1"))


if __name__ == "__main__":
    unittest.main()
