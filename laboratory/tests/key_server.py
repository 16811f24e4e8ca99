"""A real PyKMIP server and its clients, and the order in which the server took the calls."""

from __future__ import annotations

import os
import signal
import subprocess
from collections import defaultdict
from pathlib import Path
from typing import Iterator, Optional

import messages
from laboratory import PYKMIP_PYTHON, SECONDS, Begin, Laboratory, wait_until
from ports import free_port

HERE = Path(__file__).resolve().parent
PYKMIP = HERE.parent / "pykmip"


def _end(server: subprocess.Popen) -> None:
    """Ends a PyKMIP server in order, and what it started if it does not."""
    server.send_signal(signal.SIGINT)
    try:
        server.wait(SECONDS)
    except subprocess.TimeoutExpired:
        os.killpg(server.pid, signal.SIGKILL)
        server.wait(SECONDS)


def _environment(keylog: Optional[Path]) -> dict[str, str]:
    return {**os.environ, **({"SSLKEYLOGFILE": str(keylog)} if keylog else {})}


class WithPyKmip(Laboratory):
    """Tests with a PyKMIP server, new for each of them."""

    def setUp(self) -> None:
        if not PYKMIP_PYTHON:
            self.skipTest("PyKMIP is not there (Debian's package python3-pykmip)")
        super().setUp()
        (self.folder / "policies").mkdir()
        for name in ("authority.pem", "server.pem", "server.key"):
            (self.folder / name).write_bytes((self.certificates / name).read_bytes())
        self.server_port = free_port()
        with open(self.folder / "server.said", "w") as said:
            server = subprocess.Popen(
                [PYKMIP_PYTHON, "-W", "ignore", PYKMIP / "pykmip_server.py", self.folder, str(self.server_port)],
                stdout=said, stderr=said, start_new_session=True)
        self.addCleanup(_end, server)
        wait_until(self._serves, "the PyKMIP server")

    def _serves(self) -> bool:
        log = self.folder / "server.log"
        return log.exists() and "Starting connection service" in log.read_text()

    def work(self, port: int, clients: int, rounds: int, keylog: Optional[Path] = None,
             version: str = "2.0") -> None:
        """Lets PyKMIP clients do their work, to its end."""
        done = subprocess.run(
            [PYKMIP_PYTHON, "-W", "ignore", HERE / "pykmip_clients.py", self.certificates, str(port), str(clients),
             str(rounds), version], capture_output=True, text=True, timeout=SECONDS * 4, env=_environment(keylog))
        self.assertEqual(done.returncode, 0, done.stderr)

    def write_witness(self, marks: list) -> None:
        """Writes the order in which the server's lock took the calls as the witness."""
        turns = [messages.item(0x540041, 1, messages.number(0x540011, 2, call)) for call in self._served(marks)]
        header = messages.item(0x540040, 1, messages.number(0x540002, 2, 1))
        (self.folder / "witness.ttlv").write_bytes(header + b"".join(turns))

    def _served(self, marks: list) -> Iterator[int]:
        """The numbers of the calls in the order of the server. Its sessions are told apart by what they were asked."""
        calls: dict[str, list[tuple[int, bytes]]] = defaultdict(list)
        for mark in marks:
            if isinstance(mark, Begin):
                calls[mark.client].append((mark.call, mark.message))
        session_of = {tuple(requests): session for session, requests in self._asked().items()}
        left = {session_of[tuple(message for _, message in made)]: [call for call, _ in made]
                for made in calls.values()}
        for session in (self.folder / "served").read_text().split():
            yield left[session].pop(0)

    def _asked(self) -> dict[str, list[bytes]]:
        """The requests of each session, which the server notes as a header and a rest, as version 2.1."""
        pieces: dict[str, list[bytes]] = defaultdict(list)
        for line in (self.folder / "asked").read_text().splitlines():
            session, piece = line.split()
            pieces[session].append(bytes.fromhex(piece))
        return {session: [(header + rest).replace(messages.version(2, 0), messages.version(2, 1), 1)
                          for header, rest in zip(noted[::2], noted[1::2])] for session, noted in pieces.items()}
