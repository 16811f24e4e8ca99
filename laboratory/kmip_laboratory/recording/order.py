"""The word `order`: a guess at the order in which the calls of a transcript were done, as a witness."""

from __future__ import annotations

from typing import Optional

from .. import message, ttlv
from ..files import write_file
from ..origin import origin_files
from ..records import read_file, records
from ..sealing import Chain
from ..transcript import CALL, VERSION, End, Reading
from ..trouble import say
from ..ttlv import Kind
from ..untranslated import Untranslated

HEADER = 0x540040
TURN = 0x540041


def guess(path: str) -> tuple[list[int], Optional[Chain]]:
    """The answered calls by their Time Stamps, and those of the same second by their end marks. It never sets a call
    ahead of one that ended before it began, unless the stamps do. With it, what is known of a sealed transcript."""
    untranslated, reading = Untranslated(path), Reading(path)
    ends = []
    for mark, _ in reading.marks():
        untranslated.take(mark.message)
        if isinstance(mark, End):
            ends.append(mark)
    untranslated.tell()
    ends.sort(key=lambda end: message.time_stamp(end.message) or 0)
    return [end.call for end in ends], reading.chain


def witness(calls: list[int]) -> bytes:
    """The witness with these calls as turns."""
    records_of_turns = [ttlv.structure(TURN, ttlv.integer(CALL, call)) for call in calls]
    return ttlv.structure(HEADER, ttlv.integer(VERSION, 1)) + b"".join(records_of_turns)


def turns(path: str) -> list[int]:
    """The calls of a witness, in the order of its turns."""
    numbers = [record.item.first(CALL, Kind.INTEGER) for record in records(path, read_file(path))
               if record.item.tag == TURN]
    return [number.value for number in numbers if number]


def run(transcript: str, out: str, force: bool) -> str:
    """Writes the guess, and answers the line that tells of it."""
    calls, chain = guess(transcript)
    write_file(out, witness(calls), force)
    for path, data in origin_files(out, transcript, chain):
        write_file(path, data, force)
    say("this order is a guess: calls that overlapped within one second may have been done in another")
    return f"{len(calls)} turns"
