"""A recording under way: one transcript or several behind each other, and an account of what is in them."""

from __future__ import annotations

import hashlib
import time
from typing import Callable, Optional

from ..glimpse import Glimpse, glimpse
from ..message import Side
from ..sealing import NoteKind
from ..translation import messages as translation
from ..trouble import ConnectionTrouble, say
from ..versions import JUDGED, TRANSLATED, Version
from .account import Account
from .recorded_files import Keeping, RecordedFiles
from .segments import ONE_FILE, Due, Segments

MOST_TOLD = 20


class Recording:
    """Marks calls, counts them, and begins a new file where one is due and no call is under way."""

    def __init__(self, out: str, minor_1: bool = False, segments: Segments = ONE_FILE,
                 clock: Callable[[], float] = time.monotonic, without_end: frozenset[int] = frozenset(),
                 keeping: Keeping = Keeping()) -> None:
        """`without_end` has the calls of which it is known that they will not end."""
        self.files = RecordedFiles(out, segments, keeping)
        self._minor_1 = minor_1
        self._due = Due(segments, clock)
        self._due.calls = self.files.writer.calls
        self._without_end = without_end
        self.when_quiet: Callable[[], None] = lambda: None
        self._open: set[int] = set()
        self._versions: set[Version] = set()
        self._translator = translation.Translator()
        self.account = Account()

    @property
    def path(self) -> str:
        """The file that is written to."""
        return self.files.path

    def wants_quiet(self) -> bool:
        """Whether a new file is due, and calls are under way."""
        return bool(self._open) and self._due.is_due()

    def begin(self, client: str, request: bytes) -> int:
        """Marks that a request is whole, and answers the number of its call."""
        if not self._open and self._due.is_due():
            self.files.begin_next()
            self._due.restart()
        seen = glimpse(request, Side.CLIENT)
        self._tell_version(client, seen)
        number = self.files.writer.next_call
        marked = self._marked(number, Side.CLIENT, request)
        try:
            call = self.files.writer.begin(client, marked)
        except ConnectionTrouble as trouble:
            trouble.unrecorded = request
            raise
        self._due.begin()
        if call not in self._without_end:
            self._open.add(call)
        self.account.begin(call, seen if marked is request else glimpse(marked, Side.CLIENT))
        return call

    def end(self, call: int, response: bytes) -> None:
        """Marks that the response to a call is whole. One that comes behind the end of the call's file is noted."""
        if not self.files.writer.has_open(call):
            self._note_late(call, response)
            return
        marked = self._marked(call, Side.SERVER, response)
        try:
            self.files.writer.end(call, marked)
        except ConnectionTrouble as trouble:
            trouble.unrecorded = response
            raise
        self.account.end(call, glimpse(marked, Side.SERVER))
        self.give_up(call)

    def give_up(self, call: int) -> None:
        """A call is no longer under way, whether it was answered or not, and holds no new file up."""
        self._open.discard(call)
        if not self._open:
            self.when_quiet()

    def leave_behind(self) -> None:
        """The calls under way hold no new file up any more: they stay open in this one, unless they end ahead of it."""
        calls = sorted(self._open)
        told = ", ".join(map(str, calls[:MOST_TOLD])) + (", .." if len(calls) > MOST_TOLD else "")
        which = f"call {told} was" if len(calls) == 1 else f"calls {told} were"
        self._open.clear()
        say(f"{which} under way for all of --hold, and stays open in {self.path}: a new file begins")

    def note(self, kind: NoteKind, text: str) -> None:
        """Notes something in a sealed recording."""
        self.files.writer.note(kind, text)

    def note_unrecorded(self, why: str, message: bytes) -> None:
        """Notes that a message was not recorded, so that it can be known again."""
        self.note(NoteKind.NOT_RECORDED, f"{why}; {len(message)} bytes, SHA-256 {hashlib.sha256(message).hexdigest()}")

    def summary(self) -> str:
        """The line that tells what was recorded, of all files together."""
        return self.files.writer.summary()

    def account_lines(self) -> list[str]:
        """The account of it, as lines for a person."""
        return self.account.lines()

    def __enter__(self) -> Recording:
        return self

    def __exit__(self, *_: object) -> None:
        self.files.close()

    def _note_late(self, call: int, response: bytes) -> None:
        """Tells of an answer whose call stays open in a file before this one."""
        why = f"the answer to call {call}, which stays open in its file, came too late for that"
        if self.files.writer.chain:
            self.note_unrecorded(why, response)
        say(f"{why}: {len(response)} bytes, SHA-256 {hashlib.sha256(response).hexdigest()}")

    def _marked(self, call: int, side: Side, message: bytes) -> bytes:
        """The message as the transcript is to have it."""
        if not self._minor_1:
            return message
        return self._translator.message(call, side, message)

    def _tell_version(self, client: str, seen: Optional[Glimpse]) -> None:
        """Tells a version that can't be judged at its first message."""
        version = seen.version if seen else None
        if version is None or version == JUDGED or version in self._versions:
            return
        self._versions.add(version)
        if version not in TRANSLATED:
            say(f"{client} speaks version {version}, which the auditor does not judge")
        elif not self._minor_1:
            say(f"{client} speaks version {version}, which the auditor does not judge: `--minor 1` records it as 2.1, "
                "and `kmip_record translate` makes it so afterwards")


def tell_account(recording: Recording) -> None:
    """Closes the recording and tells what was recorded: the lines for a person, and then the summary for programs."""
    try:
        recording.files.close()
    finally:
        for line in recording.account_lines():
            say(line)
        print(recording.summary(), flush=True)
