"""The word `cut`: a transcript as several behind each other, each of which begins while no call is under way."""

from __future__ import annotations

import os
from typing import BinaryIO

from .. import message
from ..files import new_folder, write_file
from ..origin import origin_files
from ..paths import see_plain
from ..transcript import FILE_HEADER, Begin, Mark, Reading, marks_in
from ..trouble import Trouble, say
from ..untranslated import Untranslated
from .rewriting import rewrite
from .segments import Due, Segments
from .selection import Range


def never_ended(source: str) -> frozenset[int]:
    """The calls without an end mark. They are no longer under way than up to their begin, as far as cuts go."""
    begun: dict[int, bool] = {}
    for mark in marks_in(source):
        begun[mark.call] = not isinstance(mark, Begin)
    return frozenset(call for call, has_ended in begun.items() if not has_ended)


class Cutter:
    """Writes marks into the files of a folder, and begins a new one where one is due."""

    def __init__(self, folder: str, segments: Segments, without_end: frozenset[int]) -> None:
        self._folder = folder
        self._without_end = without_end
        self._stamp = 0
        self._due = Due(segments, lambda: self._stamp)
        self._under_way: set[int] = set()
        self.counts: list[int] = []
        self._next_file()

    def take(self, mark: Mark, record: bytes) -> None:
        """Writes a mark, as its record has it."""
        if isinstance(mark, Begin):
            if self._due.is_due() and not self._under_way:
                self._next_file()
            self._due.begin()
            self.counts[-1] += 1
            if mark.call not in self._without_end:
                self._under_way.add(mark.call)
        else:
            self._under_way.discard(mark.call)
            self._stamp = max(self._stamp, message.time_stamp(mark.message) or 0)
        self._file.write(record)

    def close(self) -> None:
        """Closes the last file."""
        self._file.close()

    def _next_file(self) -> None:
        if self.counts:
            self.close()
        self.counts.append(0)
        self._due.restart()
        path = os.path.join(self._folder, segment_name(len(self.counts)))
        self._file: BinaryIO = os.fdopen(os.open(path, os.O_WRONLY | os.O_CREAT | os.O_EXCL, 0o600), "wb")
        self._file.write(FILE_HEADER)


def segment_name(number: int) -> str:
    """The name of a file in the folder."""
    return f"transcript-{number:04d}.ttlv"


def run(source: str, folder: str, segments: Segments) -> str:
    """Makes the folder with the files, tells what is in them, and answers the summary."""
    if not segments.are_asked:
        raise Trouble("`cut` needs --segment-calls or --segment-seconds, after how many a new file is to begin; or "
                      "--calls, which are to be left")
    see_plain(source)
    untranslated = Untranslated(source)
    with new_folder(folder) as made:
        cutter, reading = Cutter(made, segments, never_ended(source)), Reading(source)
        for mark, record in reading.marks():
            untranslated.take(mark.message)
            cutter.take(mark, record)
        cutter.close()
        for path, data in origin_files(folder, source, reading.chain):
            write_file(path, data)
    untranslated.tell()
    for number, count in enumerate(cutter.counts, 1):
        more = ", more than asked for: calls were under way all the time" if segments.calls and (
            count > segments.calls) else ""
        say(f"{segment_name(number)}: {count} calls{more}")
    return f"{len(cutter.counts)} files, {sum(cutter.counts)} calls"


def run_of(source: str, target: str, wanted: Range) -> str:
    """Writes a transcript of these calls alone, tells what it lacks, and answers the summary."""
    see_plain(source)
    begun = [mark.call for mark in marks_in(source) if isinstance(mark, Begin)]
    kept = [call for call in begun if wanted.first <= call <= wanted.last]
    if not kept:
        raise Trouble(f"{source} has no call from {wanted.first} to {wanted.last}; `kmip_record list {source}` has the "
                      "numbers of its calls")
    rewrite(source, target, lambda mark: mark if wanted.first <= mark.call <= wanted.last else None)
    if len(kept) < len(begun):
        say(f"{len(begun) - len(kept)} calls are left out: what they did is not known to a search of the others")
    return f"{len(kept)} calls"
