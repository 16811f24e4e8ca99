"""Going on behind a recorder that was killed: what it left torn is kept beside the file, and the rest goes on."""

from __future__ import annotations

import os
from typing import NamedTuple

from ..appending import NEW, sync_folder
from ..paths import see_plain
from ..transcript import Reading, TornRecord, has_whole_header
from ..trouble import Trouble
from .segments import Segments, last_number, segment_path


class Resumed(NamedTuple):
    """The last file, of which number, how it was read, the call to go on behind, and how many torn bytes it had."""

    path: str
    number: int
    reading: Reading
    last_call: int
    torn: int


def resume(out: str, segments: Segments) -> Resumed:
    """What there is to go on behind. The torn end of the last file is moved into a file beside it."""
    number, torn = (last_number(out) if segments.are_asked else 1), 0
    path = _path(out, segments, number)
    see_plain(path)
    if number and os.path.exists(path) and not has_whole_header(path):
        torn = os.path.getsize(path)
        os.rename(path, _new_name(path))
        number -= 1
        path = _path(out, segments, number)
    if number < 1 or not os.path.exists(path):
        raise Trouble(f"there is no whole record at {out} to go on behind: leave --resume away")
    reading = Reading(path)
    try:
        for _ in reading.records():
            pass
    except TornRecord:
        torn += _move_torn_end(reading)
    return Resumed(path, number, reading, _last_call(out, segments, number, reading), torn)


def _path(out: str, segments: Segments, number: int) -> str:
    return segment_path(out, number) if segments.are_asked else out


def _last_call(out: str, segments: Segments, number: int, reading: Reading) -> int:
    """The last number of a call: of a file without calls, that of the files before it."""
    while not reading.last_call and number > 1:
        number -= 1
        reading = Reading(_path(out, segments, number))
        for _ in reading.records():
            pass
    return reading.last_call


def _move_torn_end(reading: Reading) -> int:
    """Moves what stands behind the last whole record into a new file, and answers how many bytes that are."""
    with open(reading.path, "r+b") as file:
        file.seek(reading.length)
        end = file.read()
        with os.fdopen(os.open(_new_name(reading.path), NEW, 0o600), "wb") as kept:
            kept.write(end)
            kept.flush()
            os.fsync(kept.fileno())
        sync_folder(reading.path)
        file.truncate(reading.length)
        os.fsync(file.fileno())
    return len(end)


def _new_name(path: str) -> str:
    """A name beside this one for torn bytes, which no file has."""
    number = 1
    while os.path.lexists(f"{path}.torn-{number}"):
        number += 1
    return f"{path}.torn-{number}"
