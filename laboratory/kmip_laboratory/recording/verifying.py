"""The word `verify`: tests that recordings are sealed, closed and whole, and go on behind each other."""

from __future__ import annotations

import re
from typing import Iterator, Optional

from ..origin import head_line
from ..paths import shown
from ..plain import plain
from ..records import read_file
from ..sealing import Chain
from ..transcript import Reading
from ..trouble import Trouble

HEAD_LINE = re.compile(r"recording (?P<recording>.*) segment (?P<segment>[0-9]+) records (?P<records>[0-9]+) "
                       r"(?:moment \S+ )?head (?P<head>[0-9a-f]{64})")
# A head that was written down: the recording, the segment, how many records stood there, and the head itself.
Head = tuple[str, int, int, str]


def verify(paths: list[str], head: Optional[str], heads: Optional[str]) -> Iterator[str]:
    """A line for each of these files, which are segments in their order; ends in a Trouble at the first fault."""
    missing = read_heads(heads) if heads else []
    last: Optional[Reading] = None
    for path in paths:
        last = Reading(path, last)
        chain = _whole(last, missing)
        yield f"{plain(shown(path))}: {head_line(chain)}"
    if last and last.chain and head is not None and last.chain.seal.hex() != head:
        raise Trouble(f"the head of {shown(paths[-1])} is {last.chain.seal.hex()}, and not {head}: it is not what that "
                      "was written down of, or its end is missing")
    if missing:
        recording, segment, records, told = missing[0]
        raise Trouble(f"{len(missing)} heads of {heads} stand in none of these files, first {told} behind {records} "
                      f"records of segment {segment} of recording {recording}: give all segments, or something is "
                      "missing or was made anew")


def read_heads(path: str) -> list[Head]:
    """The heads that a recorder wrote down with `--heads`."""
    found = []
    for line in read_file(path).decode("utf-8", "replace").splitlines():
        told = HEAD_LINE.fullmatch(line)
        if told is None:
            raise Trouble(f"{shown(path)} has a line that is no head: {line!r}; give the file that `--heads` made")
        found.append((told["recording"], int(told["segment"]), int(told["records"]), told["head"]))
    return found


def _whole(reading: Reading, missing: list[Head]) -> Chain:
    """What is known of a transcript once all of it is read. The heads that stand in it are no longer missing."""
    wanted = set(missing)
    for _ in reading.records():
        _see_head(reading.chain, wanted)
    chain = reading.chain
    if chain is None:
        raise Trouble(f"{shown(reading.path)} is not sealed: it is of version 1, and nothing shows whether something "
                      "of it is missing; `kmip_record seal` seals it as it is now")
    if not chain.is_closed:
        raise Trouble(f"{shown(reading.path)} has no close behind its {chain.records} records, at offset "
                      f"{reading.length}: its recorder was killed, or its end was cut off. Up to there it is unbroken, "
                      f"and its head is {chain.seal.hex()}")
    missing[:] = [each for each in missing if each in wanted]
    return chain


def _see_head(chain: Optional[Chain], wanted: set[Head]) -> None:
    if wanted and chain:
        header = chain.header
        wanted.discard((plain(header.recording), header.segment, chain.records, chain.seal.hex()))
