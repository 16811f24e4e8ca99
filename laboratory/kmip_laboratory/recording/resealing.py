"""The word `seal`: a sealed transcript of one of version 1, which says that it was sealed later."""

from __future__ import annotations

import itertools
import uuid

from ..files import new_file
from ..origin import head_line
from ..paths import shown
from ..plain import plain
from ..sealing import NO_SEAL, Chain, Header, NoteKind, close, note, spelled_header
from ..transcript import Reading
from ..trouble import Trouble
from ..ttlv import LONGEST_ITEM


def new_chain() -> Chain:
    """The first segment of a recording with a name that no other has."""
    return Chain(Header(str(uuid.uuid4()), 1, NO_SEAL))


def seal(source: str, target: str) -> str:
    """Writes the sealed transcript, and answers the line that tells its head."""
    chain, reading = new_chain(), Reading(source)
    with new_file(target) as file:
        file.write(spelled_header(chain.header))
        told = note(NoteKind.WORDS, f"sealed later, of {plain(shown(source))}: it bore no seals when it was recorded, "
                    "and the moments are those of the sealing")
        for record in itertools.chain([told], (record for _, record in reading.marks())):
            made = chain.sealed(record)
            if len(made) > LONGEST_ITEM:
                raise Trouble(f"{shown(source)} has a mark of {len(record):,} bytes, too long for a seal beside it")
            file.write(made)
            chain.follow(made)
        if reading.chain:
            raise Trouble(f"{shown(source)} is sealed already; `kmip_record verify` tests it")
        last = chain.sealed(close(chain.records))
        file.write(last)
        chain.follow(last)
    return head_line(chain)
