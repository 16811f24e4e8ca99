"""Which version a server is spoken to in, and `kmip_drive audit` on PyKMIP in each version that it has."""

from __future__ import annotations

import asyncio
import unittest

import messages
import stub
from key_server import WithPyKmip
from laboratory import AUDITOR, Laboratory
from test_drive import driven

from kmip_laboratory import tls, ttlv
from kmip_laboratory.address import Address
from kmip_laboratory.recording import discovery
from kmip_laboratory.trouble import Trouble
from kmip_laboratory.versions import Version

STAMP = 1_700_000_000
DISCOVER_VERSIONS = 0x1E
# PyKMIP keeps states, and not the dates that make them; and its Initial Date may be of the second before.
NOT_KEPT = ("Initial Date", "Activation Date", "Deactivation Date", "Compromise Date", "Destroy Date")
OF_PYKMIP = ("1.0", "1.1", "1.2", "1.3", "1.4", "2.0")


def version_in(header: bytes) -> tuple[int, int]:
    """The version of a request."""
    item = ttlv.read_item(header).children()[0].children()[0]
    major, minor = (child.value for child in item.children())
    return major, minor


def listing(version: tuple[int, int], listed: list[tuple[int, int]]) -> bytes:
    """A response to Discover Versions."""
    told = messages.answering(DISCOVER_VERSIONS, 0, *(messages.version(*each) for each in listed))
    return messages.response(STAMP, told, protocol=version)


class Discovery(Laboratory):
    """Servers that tell it in their ways."""

    def newest(self, answers: dict[tuple[int, int], bytes]) -> Version:
        """What is found out of a server that answers so in these versions, and closes the connection in all others."""
        def answering(peer: stub.ssl.SSLSocket, request: bytes) -> None:
            answer = answers.get(version_in(request))
            if answer is None:
                peer.close()
            else:
                peer.sendall(answer)

        context = tls.toward_server(*(str(self.certificates / name) for name in (
            "client-1.pem", "client-1.key", "authority.pem")))
        return asyncio.run(discovery.newest(Address("127.0.0.1", self.stub(answering).port), context))

    def test_the_newest_of_those_that_are_listed(self) -> None:
        self.assertEqual(self.newest({(2, 1): listing((2, 1), [(3, 0), (2, 1), (2, 0)])}), (2, 1))
        self.assertEqual(self.newest({(1, 4): listing((1, 4), [(1, 1), (1, 3), (1, 2)])}), (1, 3))

    def test_a_server_that_refuses_newer_ones_in_another_version(self) -> None:
        refused = messages.not_found(STAMP, (1, 0))
        self.assertEqual(self.newest({(2, 1): refused, (2, 0): refused, (1, 2): listing((1, 2), [(1, 2)])}), (1, 2))

    def test_a_server_of_1_0_does_not_know_the_question(self) -> None:
        self.assertEqual(self.newest({(1, 0): messages.not_found(STAMP, (1, 0))}), (1, 0))

    def test_a_server_that_tells_nothing(self) -> None:
        with self.assertRaisesRegex(Trouble, "does not say which versions it speaks: give one by --kmip, as 1.2"):
            self.newest({})


class OnPyKmip(WithPyKmip):
    """One command on a server of others."""

    def audited(self, out: str, *more: object) -> object:
        return driven("audit", "--server", f"127.0.0.1:{self.server_port}", "--cert", "client-1.pem", "--key",
                      "client-1.key", "--ca", "authority.pem", "--calls", "30", "--clients", "2", "--mix", "lifecycle",
                      *(word for name in NOT_KEPT for word in ("--forget", name)), "--out", self.folder / out,
                      "--auditor", AUDITOR, *more, cwd=self.certificates)

    def test_one_command_in_every_version_that_it_has(self) -> None:
        for version in OF_PYKMIP:
            done = self.audited(version, "--kmip", version)
            with self.subTest(version=version):
                self.assertEqual(done.returncode, 0, done.stdout + done.stderr)
                self.assertIn("\nexplained\n", done.stdout)
        found = self.audited("found")
        self.assertEqual(found.returncode, 0, found.stdout + found.stderr)
        self.assertIn("the server is spoken to in version 2.0\n", found.stderr)
        refused = self.audited("refused", "--kmip", "2.1")
        self.assertEqual(refused.returncode, 3)
        self.assertIn("the server could not be asked what it holds", refused.stderr)


if __name__ == "__main__":
    unittest.main()
