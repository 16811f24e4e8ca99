"""The auditor, asked: its program is run on files, and every verdict of the laboratory is what it answered."""

from __future__ import annotations

import os
import re
import shutil
import subprocess
import threading
from pathlib import Path
from typing import Callable, Iterator, Optional, Union

from .judgement import Aside, Judgement, read_asides, read_fault, read_judgement
from .trouble import Trouble
from .verdicts import Account, Outcome, Verdict, read_account, read_explained, read_verdict

BUILT = Path(__file__).resolve().parents[2] / "crates/kmip_audit/out/kmip_audit"
VARIABLE = "KMIP_AUDIT"
UNDECIDED, USAGE = 4, 64
# What a segment leaves, behind its yes.
LEFT = re.compile(r"^left: \d+ entries, last stamp (\S+)$", re.MULTILINE)
Reader = Callable[[str, int], Optional[Verdict]]


class Auditor:
    """The program, wherever it is."""

    def __init__(self, program: Optional[str] = None, seconds: Optional[float] = None) -> None:
        """`seconds` is the time that each of its runs is given; there is no limit without."""
        self._seconds = seconds
        self.program = _abiding(program) if program else _found()
        found = shutil.which(self.program)
        if found is None:
            raise Trouble(f"there is no auditor at {self.program}: build it (README.md says how), or give its program "
                          f"in {VARIABLE}")
        self.file = found

    def version(self) -> str:
        """What the program calls itself, without the commit and the kit that stand on lines of their own."""
        try:
            return self._run("--version").stdout.strip().partition("\n")[0]
        except subprocess.TimeoutExpired:
            return "kmip_audit"

    def check(self, transcript: str, declaration: str, witness: str) -> Verdict:
        """What a check of these files says."""
        return self._verdict("check", transcript, declaration, witness)

    def explained(self, *words: str) -> Verdict:
        """What these words say, and why, where the program knows that."""
        try:
            done = self._run(*words, "--explain")
        except subprocess.TimeoutExpired:
            return self._late()
        if done.returncode == USAGE and not done.stdout:
            return self._verdict(*words)
        return self._read(words[0], done, read_explained)

    def account(self, transcript: str, declaration: str, witness: str) -> Optional[Account]:
        """The program's version and the digests of these files as it read them, where it tells them."""
        try:
            return read_account(self._run("check", transcript, declaration, witness, "--json").stdout)
        except subprocess.TimeoutExpired:
            return None

    def search(self, transcript: str, declaration: str, out: str, budget: Optional[int] = None) -> Verdict:
        """What a search says; the witness that it finds goes into the new file."""
        more = [] if budget is None else ["--budget", str(budget)]
        return self._verdict("search", transcript, declaration, out, "--quiet", *more)

    def judge(self, transcript: str, declaration: Optional[str], witness: str, used: Optional[str],
              budget: int) -> Union[Judgement, Verdict]:
        """What is found in a recording; or the fault of a file. The witness goes into a new file, and so does the
        declaration that is used, where that is asked for."""
        files = [transcript, *([declaration] if declaration else [])]
        more = ["--declaration", used] if used else []
        try:
            done = self._run("judge", *files, "--witness", witness, *more, "--budget", str(budget), "--quiet")
        except subprocess.TimeoutExpired:
            return self._late()
        found = read_judgement(done.stdout, done.returncode)
        return found if found else self._read("judge", done, read_fault)

    def asides(self, transcript: str, declaration: Optional[str], budget: int) -> list[Aside]:
        """All identifiers of which nothing is judged, which the lines of a judgement tell the first of."""
        files = [transcript, *([declaration] if declaration else [])]
        try:
            return read_asides(self._run("judge", *files, "--json", "--budget", str(budget), "--quiet").stdout)
        except subprocess.TimeoutExpired:
            return []

    def left(self, transcript: str, declaration: str, witness: str, out: str) -> Optional[str]:
        """The last stamp of a segment that is a yes; the declaration of what it leaves goes into the new file."""
        try:
            done = self._run("check", transcript, declaration, witness, "--leaves", out)
        except subprocess.TimeoutExpired:
            return None
        found = LEFT.search(done.stdout)
        return found[1] if found else None

    def chain(self, folder: str, budget: int, witnesses: str) -> tuple[str, int]:
        """What a chain prints of a folder of segments, and its status. The other folder gets their witnesses."""
        try:
            done = self._run("chain", folder, "--budget", str(budget), "--witnesses", witnesses)
        except subprocess.TimeoutExpired:
            return "\n".join(self._late().lines) + "\n", UNDECIDED
        if done.returncode == USAGE or not done.stdout:
            raise Trouble(" ".join(done.stderr.split()) or f"kmip_audit chain ended with status {done.returncode}")
        return done.stdout, done.returncode

    def show_each(self, path: str, *words: str) -> Iterator[str]:
        """The lines of a file's items, one after the other; up to where its time is over."""
        try:
            with subprocess.Popen([self.program, "show", path, *words], stdin=subprocess.DEVNULL,
                                  stdout=subprocess.PIPE, text=True, errors="replace") as running:
                with _Limit(running, self._seconds) as limit:
                    for line in running.stdout or ():
                        yield line.rstrip("\n")
        except OSError as error:
            raise self._not_run(error) from None
        if running.returncode != 0 and not limit.is_over:
            raise Trouble(f"kmip_audit show {path} ended with status {running.returncode}; run it to see why")

    def _verdict(self, *words: str) -> Verdict:
        try:
            return self._read(words[0], self._run(*words), read_verdict)
        except subprocess.TimeoutExpired:
            return self._late()

    def _late(self) -> Verdict:
        return Verdict(Outcome.LATE, [f"the auditor gave no answer in {self._seconds:g} seconds"], UNDECIDED)

    def _read(self, word: str, done: subprocess.CompletedProcess[str], read: Reader) -> Verdict:
        verdict = read(done.stdout, done.returncode)
        if verdict is None:
            told = " ".join((done.stdout + done.stderr).split())
            raise Trouble(f"{self.program} {word} ended with status {done.returncode}, and said what is no verdict: "
                          f"{told[:200] or 'nothing'}; give the auditor's program in {VARIABLE}")
        return verdict

    def _run(self, *words: str) -> subprocess.CompletedProcess[str]:
        try:
            return subprocess.run([self.program, *words], stdin=subprocess.DEVNULL, capture_output=True, text=True,
                                  check=False, errors="replace", timeout=self._seconds)
        except OSError as error:
            raise self._not_run(error) from None

    def _not_run(self, error: OSError) -> Trouble:
        return Trouble(f"the auditor {self.program} can't be run: {error.strerror}; build it, or give its program in "
                       f"{VARIABLE}")


class _Limit:
    """Kills a program that goes on for longer than it may; `is_over` says whether that was so."""

    def __init__(self, running: subprocess.Popen[str], seconds: Optional[float]) -> None:
        self._running = running
        self._timer = None if seconds is None else threading.Timer(seconds, self._stop)
        self.is_over = False

    def _stop(self) -> None:
        self.is_over = True
        self._running.kill()

    def __enter__(self) -> _Limit:
        if self._timer:
            self._timer.start()
        return self

    def __exit__(self, *_: object) -> None:
        if self._timer:
            self._timer.cancel()


def _found() -> str:
    """The program: that of the variable, the built one, or the one on the path."""
    named = os.environ.get(VARIABLE)
    if named:
        return _abiding(named)
    if BUILT.exists():
        return str(BUILT)
    return shutil.which("kmip_audit") or str(BUILT)


def _abiding(program: str) -> str:
    """The program's name, so that it means the same in every folder."""
    return os.path.abspath(program) if os.sep in program else program
