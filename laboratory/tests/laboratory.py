"""What the tests need: folders with certificates, a recorder under way, clients, and the auditor's verdict."""

from __future__ import annotations

import contextlib
import io
import os
import re
import resource
import signal
import socket
import ssl
import subprocess
import sys
import tempfile
import threading
import time
import unittest
from pathlib import Path
from typing import Callable, NamedTuple, Optional, Sequence

import certificates
import stub

FOLDER = Path(__file__).resolve().parent.parent
RECORDER = FOLDER / "kmip_record"
AUDITOR = os.environ.get("KMIP_AUDIT", str(FOLDER.parent / "crates/kmip_audit/out/kmip_audit"))
PYKMIP_PYTHON = os.environ.get("PYKMIP_PYTHON", "")
# How long something is waited for that has to come: much longer than it takes, since the machine may do much else.
SECONDS = 240

sys.path.insert(0, str(FOLDER))

from kmip_laboratory.recording.words import main as record  # noqa: E402
from kmip_laboratory.transcript import Begin, End, read_marks  # noqa: E402


def run(*words: object, cwd: Optional[Path] = None) -> subprocess.CompletedProcess:
    """Does in this process what kmip_record does with these words, up to its end."""
    return run_here(record, words, cwd)


def run_here(main: Callable[[list[str]], int], words: Sequence[object], cwd: Optional[Path] = None) -> (
        subprocess.CompletedProcess):
    """Does in this process what a program does with these words: a process of its own takes ten times as long."""
    spelled, out, err, folder = [str(word) for word in words], io.StringIO(), io.StringIO(), os.getcwd()
    with contextlib.redirect_stdout(out), contextlib.redirect_stderr(err):
        os.chdir(cwd or folder)
        try:
            status = main(spelled)
        except SystemExit as ended:
            status = int(ended.code or 0)
        finally:
            os.chdir(folder)
    return subprocess.CompletedProcess(spelled, status, out.getvalue(), err.getvalue())


def run_apart(*words: object, **more: object) -> subprocess.CompletedProcess:
    """Runs kmip_record with these words to its end, as a process of its own."""
    return subprocess.run([sys.executable, str(RECORDER), *map(str, words)], capture_output=True, text=True,
                          timeout=SECONDS * 3, **more)


def audit(folder: Path, transcript: str = "transcript.ttlv", declaration: str = "declaration.ttlv",
          witness: str = "witness.ttlv") -> str:
    """What the auditor prints on these files, but for the line that it has of a sealed transcript."""
    done = subprocess.run([AUDITOR, "check", transcript, declaration, witness], cwd=folder, capture_output=True,
                          text=True, timeout=SECONDS * 3)
    return re.sub(r"^sealed: .*\n\Z", "", done.stdout, flags=re.MULTILINE)


def wait_until(holds: Callable[[], object], what: str) -> None:
    """Waits until something holds; it is a failure if it does not in time."""
    end = time.monotonic() + SECONDS
    while not holds():
        if time.monotonic() > end:
            raise AssertionError(f"waited in vain: {what}")
        time.sleep(0.01)


class InFolder(unittest.TestCase):
    """Each test has a folder of its own, and nothing else."""

    def setUp(self) -> None:
        folder = tempfile.TemporaryDirectory(prefix="laboratory-")
        self.addCleanup(folder.cleanup)
        self.folder = Path(folder.name)

    def refused(self, *words: object) -> str:
        """The one line on standard error at these words, which end with status 1 and leave no new file."""
        before = sorted(path.name for path in self.folder.iterdir())
        done = run(*words, cwd=self.folder)
        self.assertEqual((done.returncode, done.stdout, done.stderr.count("\n")), (1, "", 1), done.stderr)
        self.assertEqual(sorted(path.name for path in self.folder.iterdir()), before)
        return done.stderr


class Laboratory(unittest.TestCase):
    """Each test has a folder of its own; all have one set of certificates."""

    made: tempfile.TemporaryDirectory
    certificates: Path

    @classmethod
    def setUpClass(cls) -> None:
        cls.made = tempfile.TemporaryDirectory(prefix="recorder-")
        cls.certificates = Path(cls.made.name)
        certificates.make_authority(cls.certificates)
        certificates.make_certificates(cls.certificates, ["server", "recorder", *(f"client-{n}" for n in range(7))])

    @classmethod
    def tearDownClass(cls) -> None:
        cls.made.cleanup()

    def setUp(self) -> None:
        folder = tempfile.TemporaryDirectory(dir=self.certificates)
        self.addCleanup(folder.cleanup)
        self.folder = Path(folder.name)

    def start(self, port: int, *more: str, program: Path = RECORDER, limit: Optional[Limit] = None) -> Recorder:
        """A recorder ahead of the server at this port."""
        recorder = Recorder(self.certificates, self.folder / "transcript.ttlv", port, more, program, limit)
        self.addCleanup(recorder.kill)
        return recorder

    def patient(self) -> Path:
        """A recorder that gives a handshake much longer than a client waits here: who is late because the machine does
        much else is served, and who has to wait for a handshake that goes no further is not."""
        program = self.folder / "patient"
        program.write_text(f"import sys\nsys.path.insert(0, {str(FOLDER)!r})\nfrom kmip_laboratory import peer\n"
                           f"peer.SECONDS_TO_GREET = {10 * SECONDS}\n"
                           "from kmip_laboratory.recording.words import main\nsys.exit(main())\n")
        return program

    def stub(self, answering: stub.Answering, **more: object) -> stub.Stub:
        """A server that answers as it is told."""
        made = stub.Stub(self.certificates, answering, **more)
        self.addCleanup(made.close)
        return made

    def client(self, port: int, name: str = "client-1") -> ssl.SSLSocket:
        """A client's connection."""
        context = stub.context(self.certificates, name, server_side=False)
        # Who is connected speaks at once: who says nothing may have to go for others.
        peer = context.wrap_socket(socket.create_connection(("127.0.0.1", port), timeout=SECONDS))
        self.addCleanup(peer.close)
        return peer


class Limit(NamedTuple):
    """What a process may have at most: a resource's number, and how much of it."""

    resource: int
    most: int

    def set(self) -> None:
        """Sets it for this process."""
        resource.setrlimit(self.resource, (self.most, self.most))


class Recorder:
    """A `kmip_record proxy` under way. `port` is where clients come to."""

    def __init__(self, folder: Path, transcript: Path, server: int, more: Sequence[str], program: Path,
                 limit: Optional[Limit]) -> None:
        self.transcript = transcript
        self.said: list[str] = []
        words = ["proxy", "--listen", "127.0.0.1:0", "--server", f"127.0.0.1:{server}", "--cert", "recorder.pem",
                 "--key", "recorder.key", "--client-ca", "authority.pem", "--out", str(transcript), *more]
        self._process = subprocess.Popen(
            [sys.executable, str(program), *words], cwd=folder, stdout=subprocess.PIPE, stderr=subprocess.PIPE,
            text=True, preexec_fn=limit.set if limit else None)
        self._listening = threading.Thread(target=self._listen, daemon=True)
        self._listening.start()
        wait_until(lambda: self._process.poll() is not None or self.heard("leads to"), "the recorder's first words")
        found = re.search(r"127\.0\.0\.1:(\d+) leads to", "\n".join(self.said))
        self.port = int(found.group(1)) if found else 0

    def _listen(self) -> None:
        for line in self._process.stderr:
            self.said.append(line.rstrip("\n"))

    def heard(self, words: str) -> bool:
        """Whether it said this on standard error."""
        return any(words in line for line in self.said)

    def marks(self) -> list[Begin | End]:
        """The marks that are in the file now."""
        return read_marks(str(self.transcript))

    def end(self, number: int = signal.SIGINT) -> str:
        """Ends it by a signal, and answers its last line."""
        self._process.send_signal(number)
        return self.last_words()

    def last_words(self) -> str:
        """Waits for its end, and answers its last line."""
        line = self._process.stdout.read().strip()
        self._process.wait(SECONDS)
        self._listening.join(SECONDS)
        return line

    def status(self) -> Optional[int]:
        """Its status, once it has ended, and all that it said was heard."""
        status = self._process.poll()
        if status is not None:
            self._listening.join(SECONDS)
        return status

    def kill(self) -> None:
        """Ends it at once."""
        self._process.kill()
        self._process.wait(SECONDS)
        self._listening.join(SECONDS)
        self._process.stdout.close()
        self._process.stderr.close()


def kinds(marks: Sequence[Begin | End]) -> list[tuple[str, int]]:
    """The marks without their messages."""
    return [("begin" if isinstance(mark, Begin) else "end", mark.call) for mark in marks]
