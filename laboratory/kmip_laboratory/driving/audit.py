"""The word `audit`: declares, drives and records, judges and reports, in one go."""

from __future__ import annotations

import asyncio
from pathlib import Path
from typing import NamedTuple

from ..auditing.run import Asked, conclude
from ..auditor import Auditor
from ..recording import declaration, inventory, rules
from ..recordings import DECLARATION, TRANSCRIPT
from ..sifting import run as sifting
from ..trouble import Trouble
from ..versions import Version
from . import record
from .drive import Job, drive

# What was recorded, where something of it is forgotten.
RECORDED = "recorded.ttlv"


class Wanted(NamedTuple):
    """What is asked for besides the driving: the folder, whether the transcript is sealed, what is declared of the
    server, the attributes that are forgotten, and the steps of each search."""

    folder: Path
    is_sealed: bool
    is_empty: bool
    unique_names: bool
    rows: list[rules.Row]
    forgotten: frozenset[int]
    budget: int


def run(job: Job, wanted: Wanted, auditor: Auditor) -> int:
    """Everything. The status is that of an audit of what was recorded."""
    folder = wanted.folder
    with record.recording(folder, job.version, wanted.is_sealed) as transcript:
        _declare(job, wanted)
        done = drive(job, transcript, progress=True)
    print(transcript.summary())
    print("\n".join(done.lines()), flush=True)
    _forget(wanted)
    return conclude(Asked(folder, wanted.budget), auditor)


def _declare(job: Job, wanted: Wanted) -> None:
    """What the server holds, as it says itself; or nothing."""
    entries: list[declaration.Entry] = []
    if not wanted.is_empty:
        try:
            held = asyncio.run(inventory.held(job.server, job.context, Version(*job.version), False))
            entries, _ = inventory.entries({"the driver": held}, False, {})
        except Trouble as trouble:
            raise Trouble(f"the server could not be asked what it holds ({trouble}); on one that holds nothing, give "
                          "--empty") from None
    said = rules.Rules(wanted.unique_names, wanted.rows, [])
    told = declaration.run(said, declaration.Held(entries), str(wanted.folder / DECLARATION), False)
    print(f"declaration: {told}", flush=True)


def _forget(wanted: Wanted) -> None:
    """Takes attributes out of what was recorded, which stays beside it."""
    if wanted.forgotten:
        source, target = wanted.folder / RECORDED, wanted.folder / TRANSCRIPT
        target.rename(source)
        print(sifting.run(str(source), str(target), frozenset(), wanted.forgotten), flush=True)
