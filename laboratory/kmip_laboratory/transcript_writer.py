"""Writes marks into a transcript, of version 1 or sealed. The file is whole after each mark."""

from __future__ import annotations

from typing import Optional

from . import sealing, ttlv
from .appending import AppendedFile
from .sealing import Chain, NoteKind
from .transcript import FILE_HEADER, MOST_CALLS, Begin, End, Reading, spelled
from .trouble import ConnectionTrouble, Trouble


class TranscriptWriter:
    """Writes marks into a new file, which only its owner may read: it has the bytes of keys in it."""

    def __init__(self, path: str, before: Optional[TranscriptWriter] = None, chain: Optional[Chain] = None,
                 resumed: Optional[Reading] = None, next_call: int = 1) -> None:
        """`before` is the file that this one goes on behind: numbers and sums go on from it. `chain` is that of a
        sealed file; `resumed` is what was read of a file that is there, and goes on at its end; `next_call` is
        where numbers go on without a file before."""
        self.path = path
        self.chain = chain
        self.calls = 0
        self.next_call: int = before.next_call if before else next_call
        self._open: set[int] = set()
        self._ahead: tuple[int, int] = before.sums() if before else (0, 0)
        if resumed:
            self.file = AppendedFile(path, resumed.length)
            self.calls, self._open = resumed.calls, resumed.open_calls
        else:
            self.file = AppendedFile(path)
            self.file.append(sealing.spelled_header(chain.header) if chain else FILE_HEADER)

    def begin(self, client: str, request: bytes) -> int:
        """Marks that a request is whole, and answers the number of its call."""
        if self.calls == MOST_CALLS:
            raise Trouble(f"{self.path} has {MOST_CALLS:,} calls, the most that the auditor reads: record what "
                          "follows into another file")
        call = self.next_call
        self._append(spelled(Begin(call, client, request)))
        self.calls += 1
        self.next_call += 1
        self._open.add(call)
        return call

    def has_open(self, call: int) -> bool:
        """Whether this file has the begin mark of this call, and not its end mark."""
        return call in self._open

    def end(self, call: int, response: bytes) -> None:
        """Marks that the response to a call is whole."""
        self._append(spelled(End(call, response)))
        self._open.remove(call)

    def note(self, kind: NoteKind, text: str) -> None:
        """Notes something, where the file is sealed."""
        if self.chain:
            self._append(sealing.note(kind, text))

    def summary(self) -> str:
        """The line that tells what was recorded."""
        open_calls, length = self.sums()
        return f"{self.next_call - 1} calls, {open_calls} open calls, {length} bytes"

    def sums(self) -> tuple[int, int]:
        """How many calls are open, and how many bytes were written, in this file and those ahead of it."""
        return self._ahead[0] + len(self._open), self._ahead[1] + self.file.length

    def finish(self) -> None:
        """Writes the close of a sealed file: nothing stands behind it."""
        if self.chain and not self.chain.is_closed:
            self._append(sealing.close(self.chain.records))

    def close(self, syncs: bool = True) -> None:
        """Finishes the file, brings it to the disk and closes it; refused where it is no longer there as it was."""
        try:
            self.finish()
            if syncs:
                self.file.sync()
            self.file.see_whole()
        finally:
            self.file.close()

    def __enter__(self) -> TranscriptWriter:
        return self

    def __exit__(self, *_: object) -> None:
        self.close()

    def _append(self, record: bytes) -> None:
        made = self.chain.sealed(record) if self.chain else record
        if len(made) > ttlv.LONGEST_ITEM:
            raise ConnectionTrouble(f"a message so long that its mark would be of {len(made):,} bytes, more than "
                                    f"{ttlv.LONGEST_ITEM:,}")
        self.file.append(made)
        if self.chain:
            self.chain.follow(made)
