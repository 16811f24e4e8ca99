"""The files of a recording under way, one behind the other: which is written to, and which are on the disk."""

from __future__ import annotations

from typing import NamedTuple, Optional

from ..appending import AppendedFile
from ..sealing import Chain, NoteKind, next_header
from ..transcript_writer import TranscriptWriter
from ..trouble import Trouble, say
from . import heads
from .resealing import new_chain
from .resuming import Resumed, resume
from .segments import Segments, segment_path
from .syncing import Sync, Syncing


class Keeping(NamedTuple):
    """How a recording is kept: whether it is sealed (None: as what it goes on behind, and else it is), when it is
    brought to the disk, whether it goes on behind one that is there, and where heads are written down."""

    is_sealed: Optional[bool] = None
    sync: Sync = Sync.NONE
    resumes: bool = False
    heads: Optional[heads.Heads] = None


class RecordedFiles:
    """The files. `writer` writes to the last of them."""

    def __init__(self, out: str, segments: Segments, keeping: Keeping) -> None:
        self._out = out
        self._segments = segments
        self._keeping = keeping
        self._number = 1
        # Finished files that are not known to be on the disk yet, each with the line of its head.
        self._behind: dict[AppendedFile, Optional[str]] = {}
        self._syncing = Syncing(keeping.sync, self._open_files, self._are_settled)
        self._is_closed = False
        self.writer = self._resumed(resume(out, segments)) if keeping.resumes else TranscriptWriter(
            self.path, chain=None if keeping.is_sealed is False else new_chain())

    @property
    def path(self) -> str:
        """The file that is written to."""
        return segment_path(self._out, self._number) if self._segments.are_asked else self._out

    async def settle(self) -> None:
        """Comes back when all that was marked up to now is on the disk, as far as that is asked for."""
        await self._syncing.settle()

    async def rest(self) -> None:
        """Comes back when the disk is not at work on them any more."""
        await self._syncing.rest()

    def begin_next(self) -> None:
        """Begins the next file. The one before stays open until it is known to be on the disk."""
        self.writer.finish()
        chain, line = self.writer.chain, self.head_line()
        following = TranscriptWriter(segment_path(self._out, self._number + 1), self.writer,
                                     Chain(next_header(chain), chain.moment) if chain else None)
        self._behind[self.writer.file] = line
        self.writer, self._number = following, self._number + 1
        if self._keeping.sync is Sync.NONE:
            self._syncing.settle_at_once(False)

    def head_line(self) -> Optional[str]:
        """The head as it is now, of a sealed recording."""
        return heads.line_of(self.writer.chain) if self.writer.chain else None

    def tell_head(self, line: Optional[str]) -> None:
        """Writes a head down at the second place, where there is one."""
        if line and self._keeping.heads:
            self._keeping.heads.tell(line)

    def close(self) -> None:
        """Finishes the recording; refused where it is not there as it was written."""
        if self._is_closed:
            return
        self._is_closed = True
        try:
            self.writer.finish()
            self._syncing.settle_at_once()
            self.tell_head(self.head_line())
        finally:
            for file in self._open_files():
                file.close()

    def _open_files(self) -> list[AppendedFile]:
        return [*self._behind, self.writer.file]

    def _are_settled(self, files: list[AppendedFile]) -> None:
        """These are on the disk. Of them those that were finished by now are closed, and their heads told."""
        for file in files:
            if file in self._behind:
                self.tell_head(self._behind.pop(file))
                file.close()

    def _resumed(self, found: Resumed) -> TranscriptWriter:
        """Goes on behind the recording that is there, and says so in it."""
        chain, self._number = found.reading.chain, found.number
        if self._keeping.is_sealed is not None and self._keeping.is_sealed != (chain is not None):
            raise Trouble(f"{found.path} is of version {2 if chain else 1}: give its --format, or leave that away")
        if self._keeping.heads and not chain:
            raise Trouble(f"{found.path} is of version 1, and has no heads: leave --heads away")
        next_call = found.last_call + 1
        if chain and chain.is_closed:
            if not self._segments.are_asked:
                raise Trouble(f"{found.path} is closed, and nothing goes on behind that: give --out another name")
            self._number += 1
            writer = TranscriptWriter(self.path, None, Chain(next_header(chain), chain.moment), next_call=next_call)
        else:
            writer = TranscriptWriter(found.path, None, chain, found.reading, next_call)
        writer.note(NoteKind.RESUMED, f"resumed after {found.torn} torn bytes")
        kept = f": {found.torn} torn bytes are kept beside it" if found.torn else ""
        say(f"goes on behind {found.path}, with call {next_call}{kept}")
        return writer
