"""What is made of a sealed transcript bears no seals and is no evidence: a file beside it names what it came from."""

from __future__ import annotations

from typing import Optional

from .paths import shown
from .plain import plain
from .sealing import Chain

ENDING = ".origin"


def origin_files(made: str, source: str, chain: Optional[Chain]) -> list[tuple[str, bytes]]:
    """The file beside what is made, where its source is sealed."""
    if chain is None:
        return []
    told = [f"This was drawn from {plain(shown(source))}, and is no evidence itself: keep that.",
            head_line(chain), "It was closed." if chain.is_closed else
            "It has no close: its recorder was killed, or its end was cut off."]
    told += [f"{chain.notes} notes of it are left out."] if chain.notes else []
    return [(made + ENDING, "".join(f"{line}\n" for line in told).encode("utf-8"))]


def head_line(chain: Chain) -> str:
    """Which recording and segment this is, how many records it has, and its head: the last seal."""
    recording = plain(chain.header.recording)
    return f"recording {recording} segment {chain.header.segment} records {chain.records} head {chain.seal.hex()}"
